//! A plain program that answers the sessions of `sessions.py` about builds as the program does, for comparison. It reads documents of linear
//! codes and of builds as they are written there, keeps the code of each piece in ascending order, and keeps no table.

use std::collections::HashMap;
use std::io::{self, BufWriter, Read, Write};

const LIMIT: usize = 262_144;
const STORED: usize = 1_000_000;

/// A piece: its code, and how many words it stores.
struct Piece {
    n: u32,
    d: u32,
    size: usize,
    stored: usize,
    code: Vec<u32>,
}

/// The fields of a document, by their names.
type Fields<'a> = HashMap<&'a str, &'a str>;

/// A list of texts or numbers, as it is written.
fn list(value: &str) -> Vec<&str> {
    let items = value.trim_matches(|c| c == '[' || c == ']').split(',');
    items.map(|item| item.trim().trim_matches('\'')).filter(|item| !item.is_empty()).collect()
}

fn number(fields: &Fields, name: &str) -> Option<u32> {
    fields.get(name)?.parse().ok()
}

fn word(text: &str) -> u32 {
    text.bytes().fold(0, |word, digit| 2 * word + u32::from(digit == b'1'))
}

/// All sums of the words of a basis.
fn span(basis: &[u32]) -> Vec<u32> {
    let mut words = vec![0];
    for base in basis {
        for place in 0..words.len() {
            words.push(words[place] ^ base);
        }
    }
    words
}

/// A linear code. The least weight of a word but the first is its distance.
fn linear(fields: &Fields) -> Piece {
    let (n, d) = (number(fields, "n").unwrap_or(0), number(fields, "d").unwrap_or(0));
    let basis: Vec<u32> = list(fields["basis"]).into_iter().map(word).collect();
    let mut code = span(&basis);
    assert!(code[1..].iter().all(|word| word.count_ones() >= d), "no code");
    code.sort_unstable();
    Piece { n, d, size: code.len(), stored: basis.len() + 1, code }
}

/// A word without some places, the first place being the leftmost.
fn without(word: u32, n: u32, places: &[u32]) -> u32 {
    (0..n).filter(|place| !places.contains(place)).fold(0, |left, place| 2 * left + (word >> (n - 1 - place) & 1))
}

/// What a build is made of: the distance that it gives, how many words, and whether they come in ascending order.
fn built(fields: &Fields, pieces: &HashMap<String, Piece>) -> Result<Piece, String> {
    let (n, d, w) = (number(fields, "n").unwrap_or(0), number(fields, "d").unwrap_or(0), number(fields, "w"));
    let named = |name: &str| {
        let id = fields[name].trim_matches('\'');
        pieces.get(id).ok_or_else(|| format!("nosuch {id}"))
    };
    let part = named("part")?;
    let other = if fields.contains_key("other") { Some(named("other")?) } else { None };
    let places: Vec<u32> = fields.get("places").map_or(Vec::new(), |places| list(places).iter().filter_map(|x| x.parse().ok()).collect());
    let by = fields.get("by").map_or(0, |by| word(by.trim_matches('\'')));
    let op = fields["op"].trim_matches('\'');
    let wanted = match op {
        "lengthen" | "append_one" | "parity" => n - 1,
        "puncture" | "shorten" => n + places.len() as u32,
        "uuv" => n / 2,
        "juxtapose" => n - other.map_or(0, |other| other.n),
        _ => n,
    };
    if part.n != wanted {
        return Err(format!("part {}", fields["part"].trim_matches('\'')));
    }
    let have = match (op, other) {
        ("parity", _) | ("select", _) => part.d + part.d % 2,
        ("puncture", _) => part.d.saturating_sub(places.len() as u32),
        ("uuv", Some(other)) => (2 * part.d).min(other.d),
        ("juxtapose", Some(other)) => part.d + other.d,
        _ => part.d,
    };
    if have < d {
        return Err(format!("short {have} {d}"));
    }
    let size = number(fields, "size").unwrap_or(0) as usize;
    let known = match (op, other) {
        ("uuv", Some(other)) => part.size * other.size,
        ("juxtapose", Some(other)) => part.size.min(other.size),
        _ => part.size,
    };
    if let Some(size) = [part.size, other.map_or(0, |other| other.size), known].into_iter().find(|size| *size > LIMIT) {
        return Err(format!("size {size}"));
    }
    if op == "trim" && part.size < size {
        return Err(format!("few {} {size}", part.size));
    }
    let all = (1 << n) - 1;
    let mut code: Vec<u32> = match (op, other) {
        ("lengthen", _) => part.code.iter().map(|x| 2 * x).collect(),
        ("append_one", _) => part.code.iter().map(|x| 2 * x + 1).collect(),
        ("parity", _) => part.code.iter().map(|x| 2 * x + x.count_ones() % 2).collect(),
        ("puncture", _) => part.code.iter().map(|x| without(*x, part.n, &places)).collect(),
        ("shorten", _) => {
            let digits = word(fields["digits"].trim_matches('\''));
            let has = |x: u32| places.iter().fold(0, |read, place| 2 * read + (x >> (part.n - 1 - place) & 1)) == digits;
            part.code.iter().filter(|x| has(**x)).map(|x| without(*x, part.n, &places)).collect()
        }
        ("translate", _) => part.code.iter().map(|x| x ^ by).collect(),
        ("complement", _) => part.code.iter().rev().map(|x| x ^ all).collect(),
        ("select", _) => part.code.iter().map(|x| x ^ by).filter(|x| Some(x.count_ones()) == w).collect(),
        ("uuv", Some(other)) => {
            part.code.iter().flat_map(|u| other.code.iter().map(move |v| u << (n / 2) | (u ^ v))).collect()
        }
        ("juxtapose", Some(other)) => part.code.iter().zip(&other.code).map(|(u, v)| u << other.n | v).collect(),
        _ => part.code[..size].to_vec(),
    };
    if code.is_empty() {
        return Err("empty".to_string());
    }
    if matches!(op, "puncture" | "shorten" | "translate" | "select" | "uuv") {
        code.sort_unstable();
    }
    Ok(Piece { n, d, size: code.len(), stored: code.len(), code })
}

fn main() -> io::Result<()> {
    let mut input = String::new();
    io::stdin().read_to_string(&mut input)?;
    let mut output = BufWriter::new(io::stdout().lock());
    let mut pieces: HashMap<String, Piece> = HashMap::new();
    let mut stored = 0;
    let mut lines = input.lines();
    while let Some(line) = lines.next() {
        let id = line.strip_prefix("submit ").unwrap_or("");
        let fields: Fields = lines.by_ref().take_while(|line| *line != "end").filter_map(|line| line.split_once(" = ")).collect();
        let made = if fields["kind"] == "'cosets'" { Ok(linear(&fields)) } else { built(&fields, &pieces) };
        match made {
            Ok(piece) if stored + piece.stored > STORED => {
                writeln!(output, "refused full words {}", stored + piece.stored)?;
            }
            Ok(piece) => {
                writeln!(output, "accepted {id} size {}", piece.size)?;
                stored += piece.stored;
                pieces.insert(id.to_string(), piece);
            }
            Err(reason) => writeln!(output, "refused {reason}")?,
        }
    }
    output.flush()
}
