//! A plain program that answers `show N D` over no pieces and passes over empty lines, as a session does, for comparison.

use std::io::{self, BufRead, BufWriter, Write};

/// The entry without weight that the words name, if they are `show N D`.
fn entry(line: &str) -> Option<(u32, u32)> {
    let mut words = line.split(' ').filter(|word| !word.is_empty());
    let (Some("show"), Some(n), Some(d), None) = (words.next(), words.next(), words.next(), words.next()) else {
        return None;
    };
    Some((n.parse().ok()?, d.parse().ok()?))
}

fn main() -> io::Result<()> {
    let mut input = io::stdin().lock();
    let mut output = BufWriter::new(io::stdout().lock());
    let mut line = String::new();
    while input.read_line(&mut line)? > 0 {
        let text = line.trim_end_matches('\n');
        if !text.is_empty() && !text.starts_with('#') {
            match entry(text) {
                Some((n, d)) if (1..=30).contains(&n) && (3..=30).contains(&d) => {
                    writeln!(output, "1 <= A({n},{d}) <= {}", 1u32 << n)?;
                }
                Some(_) => writeln!(output, "refused entry")?,
                None => writeln!(output, "refused command")?,
            }
        }
        line.clear();
    }
    output.flush()
}
