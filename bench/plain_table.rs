//! What a table costs, for comparison with a session. `tables` prints a session of the 28 tables without evidence, and `pieces` one of 200
//! submissions, each followed by the bounds of its entry: ever greater parts of the linear codes that the session given as a file hands in,
//! and then smaller parts, which improve nothing. `session` answers such sessions as the program does, by a worklist over the same rules. It
//! reads no other session.

use std::collections::VecDeque;
use std::fs;
use std::io::{self, BufWriter, Read, Write};

const MAX_N: usize = 30;
/// The distances are 3 to `MAX_N`.
const DISTANCES: usize = MAX_N - 2;
const EVEN_DISTANCES: usize = MAX_N / 2 - 1;
const WITHOUT_WEIGHT: usize = MAX_N * DISTANCES;
const ENTRIES: usize = WITHOUT_WEIGHT + MAX_N * EVEN_DISTANCES * (MAX_N + 1);
const MAX_BOUND: u64 = 1 << MAX_N;

/// The number of an entry without weight.
fn number(n: usize, d: usize) -> usize {
    (n - 1) * DISTANCES + d - 3
}

/// The number of an entry with a weight.
fn weighted(n: usize, d: usize, w: usize) -> usize {
    WITHOUT_WEIGHT + ((n - 1) * EVEN_DISTANCES + d / 2 - 2) * (MAX_N + 1) + w
}

/// The upper side's numbers stand behind those of the lower side.
fn upper(n: usize, d: usize) -> usize {
    ENTRIES + number(n, d)
}

/// The same, with a weight.
fn upper_weighted(n: usize, d: usize, w: usize) -> usize {
    ENTRIES + weighted(n, d, w)
}

/// What a rule makes of the bounds that it rests on.
#[derive(Clone, Copy)]
enum Rule {
    Constant(u64),
    Same(usize),
    Half(usize),
    Times(u64, usize),
    Product(usize, usize),
    Least(usize, usize),
    Sum(usize, usize),
    /// So many times the bound, divided by the last number and rounded up.
    Above(u64, usize, u64),
    /// The same, rounded down.
    Below(u64, usize, u64),
    /// Johnson's bound, of n, d and the bound of A(n,d+1,d).
    Around(usize, usize, usize),
}

impl Rule {
    fn premises(self) -> Vec<usize> {
        match self {
            Rule::Constant(_) => vec![],
            Rule::Same(a) | Rule::Half(a) | Rule::Times(_, a) => vec![a],
            Rule::Above(_, a, _) | Rule::Below(_, a, _) | Rule::Around(_, _, a) => vec![a],
            Rule::Product(a, b) | Rule::Least(a, b) | Rule::Sum(a, b) => vec![a, b],
        }
    }

    fn value(self, bounds: &[u64]) -> u64 {
        match self {
            Rule::Constant(value) => value,
            Rule::Same(a) => bounds[a],
            Rule::Half(a) => bounds[a].div_ceil(2),
            Rule::Times(times, a) => times * bounds[a],
            Rule::Product(a, b) => bounds[a] * bounds[b],
            Rule::Least(a, b) => bounds[a].min(bounds[b]),
            Rule::Sum(a, b) => bounds[a] + bounds[b],
            Rule::Above(times, a, by) => (times * bounds[a]).div_ceil(by),
            Rule::Below(times, a, by) => times * bounds[a] / by,
            Rule::Around(n, d, a) => johnson(n, d, bounds[a]).unwrap_or(MAX_BOUND),
        }
    }
}

/// A rule at an entry, by the number of the side and entry.
struct Instance {
    slot: usize,
    rule: Rule,
}

fn choose(n: usize, k: usize) -> u64 {
    (0..k).fold(1, |product, i| product * (n - i) as u64 / (i as u64 + 1))
}

fn ball(n: usize, e: usize) -> u64 {
    (0..=e.min(n)).map(|k| choose(n, k)).sum()
}

/// Johnson's bound at an odd distance that is not above n, where there is one; `around` is the bound of A(n,d+1,d).
fn johnson(n: usize, d: usize, around: u64) -> Option<u64> {
    let half = d.div_ceil(2);
    let most = (n / half) as u64;
    let rest = choose(n, half).checked_sub(choose(d, half - 1) * around)?;
    (rest > 0).then(|| (most << n) / (most * ball(n, half - 1) + rest))
}

/// One less than the least number of words that is too many, where one up to 1000 is, by the ones of each column.
fn by_columns(n: usize, d: usize, w: usize) -> Option<u64> {
    let spread = w.checked_sub(d / 2)?;
    let is_too_many = |m: &usize| {
        let (each, over) = (w * m / n, w * m % n);
        n * each * each.saturating_sub(1) + 2 * each * over > spread * m * (m - 1)
    };
    (2..=1000).find(is_too_many).map(|m| m as u64 - 1)
}

fn plotkin(n: usize, d: usize) -> Option<u64> {
    let (n, d) = (n + d % 2, d + d % 2);
    match n {
        _ if n < d => None,
        _ if n < 2 * d => Some(2 * (d / (2 * d - n)) as u64),
        _ if n == 2 * d => Some(4 * d as u64),
        _ => None,
    }
}

fn lower_rules(n: usize, d: usize) -> Vec<Rule> {
    let mut rules = vec![Rule::Constant(1)];
    if d <= n {
        rules.push(Rule::Constant(2));
    }
    if n >= 2 {
        rules.push(Rule::Same(number(n - 1, d)));
        if d % 2 == 0 {
            rules.push(Rule::Same(number(n - 1, d - 1)));
        }
    }
    if d < MAX_N {
        rules.push(Rule::Same(number(n, d + 1)));
    }
    if n < MAX_N {
        rules.push(Rule::Half(number(n + 1, d)));
        if d < MAX_N {
            rules.push(Rule::Same(number(n + 1, d + 1)));
        }
    }
    if n % 2 == 0 && d <= 4 {
        rules.push(Rule::Times(1 << (n / 2 - 1), number(n / 2, d)));
    } else if n % 2 == 0 {
        rules.push(Rule::Product(number(n / 2, d.div_ceil(2)), number(n / 2, d)));
    }
    rules.extend((0..=n).map(|w| Rule::Same(weighted(n, d + d % 2, w))));
    for m in 1..n {
        for c in 3..d.saturating_sub(2) {
            rules.push(Rule::Least(number(m, c), number(n - m, d - c)));
        }
    }
    rules
}

fn lower_weight_rules(n: usize, d: usize, w: usize) -> Vec<Rule> {
    let mut rules = vec![Rule::Constant(1), Rule::Same(weighted(n, d, n - w))];
    if d == 2 * w {
        rules.push(Rule::Constant((n / w) as u64));
    }
    if n >= 2 && w < n {
        rules.push(Rule::Same(weighted(n - 1, d, w)));
    }
    if n >= 2 && w >= 1 {
        rules.push(Rule::Same(weighted(n - 1, d, w - 1)));
    }
    if n < MAX_N {
        let (ones, zeros, places) = (w as u64 + 1, (n + 1 - w) as u64, n as u64 + 1);
        rules.push(Rule::Above(ones, weighted(n + 1, d, w + 1), places));
        rules.push(Rule::Above(zeros, weighted(n + 1, d, w), places));
    }
    if d + 2 <= MAX_N {
        rules.push(Rule::Same(weighted(n, d + 2, w)));
    }
    rules
}

fn upper_rules(n: usize, d: usize) -> Vec<Rule> {
    let by_balls = (1 << n) / ball(n, (d - 1) / 2);
    let mut rules = vec![Rule::Constant(1 << n), Rule::Constant(by_balls)];
    if d > n {
        rules.push(Rule::Constant(1));
    }
    rules.extend(plotkin(n, d).map(Rule::Constant));
    if n < MAX_N {
        rules.push(Rule::Same(upper(n + 1, d)));
        if d % 2 == 1 {
            rules.push(Rule::Same(upper(n + 1, d + 1)));
        }
    }
    if n >= 2 {
        rules.push(Rule::Times(2, upper(n - 1, d)));
        if d >= 4 {
            rules.push(Rule::Same(upper(n - 1, d - 1)));
        }
    }
    if d >= 4 {
        rules.push(Rule::Same(upper(n, d - 1)));
    }
    if d % 2 == 0 {
        rules.extend((0..=n).map(|w| Rule::Below(1 << (n - 1), upper_weighted(n, d, w), choose(n, w))));
    } else if d <= n {
        rules.push(Rule::Around(n, d, upper_weighted(n, d + 1, d)));
    }
    rules
}

fn upper_weight_rules(n: usize, d: usize, w: usize) -> Vec<Rule> {
    let mut rules = vec![Rule::Constant(choose(n, w)), Rule::Same(upper_weighted(n, d, n - w))];
    if d > 2 * w.min(n - w) {
        rules.push(Rule::Constant(1));
    }
    if d == 2 * w {
        rules.push(Rule::Constant((n / w) as u64));
    }
    if n >= 2 && w >= 1 {
        rules.push(Rule::Below(n as u64, upper_weighted(n - 1, d, w - 1), w as u64));
    }
    if n >= 2 && w < n {
        rules.push(Rule::Below(n as u64, upper_weighted(n - 1, d, w), (n - w) as u64));
    }
    if n >= 2 && 1 <= w && w < n {
        rules.push(Rule::Sum(upper_weighted(n - 1, d, w), upper_weighted(n - 1, d, w - 1)));
    }
    if d >= 6 {
        rules.push(Rule::Same(upper_weighted(n, d - 2, w)));
    }
    rules.extend(by_columns(n, d, w).map(Rule::Constant));
    rules
}

/// The bounds, lower ones first, and which instances rest on each.
struct Table {
    bounds: Vec<u64>,
    instances: Vec<Instance>,
    users: Vec<Vec<usize>>,
    waiting: VecDeque<usize>,
    marked: Vec<bool>,
}

impl Table {
    fn new() -> Table {
        let mut instances = Vec::new();
        for n in 1..=MAX_N {
            for d in 3..=MAX_N {
                let mut put = |slot, rules: Vec<Rule>| instances.extend(rules.into_iter().map(|rule| Instance { slot, rule }));
                put(number(n, d), lower_rules(n, d));
                put(upper(n, d), upper_rules(n, d));
                for w in (0..=n).filter(|_| d % 2 == 0) {
                    put(weighted(n, d, w), lower_weight_rules(n, d, w));
                    put(upper_weighted(n, d, w), upper_weight_rules(n, d, w));
                }
            }
        }
        let mut users = vec![Vec::new(); 2 * ENTRIES];
        for (place, instance) in instances.iter().enumerate() {
            for premise in instance.rule.premises() {
                users[premise].push(place);
            }
        }
        let mut bounds = vec![1; ENTRIES];
        bounds.resize(2 * ENTRIES, MAX_BOUND);
        let waiting = (0..instances.len()).collect();
        let marked = vec![true; instances.len()];
        let mut table = Table { bounds, instances, users, waiting, marked };
        table.close();
        table
    }

    /// Takes a bound where it is better, and marks the instances that rest on it.
    fn offer(&mut self, slot: usize, value: u64) {
        let bound = &mut self.bounds[slot];
        if slot < ENTRIES && value <= *bound || slot >= ENTRIES && value >= *bound {
            return;
        }
        *bound = value;
        for place in &self.users[slot] {
            if !self.marked[*place] {
                self.marked[*place] = true;
                self.waiting.push_back(*place);
            }
        }
    }

    fn close(&mut self) {
        while let Some(place) = self.waiting.pop_front() {
            self.marked[place] = false;
            let Instance { slot, rule } = self.instances[place];
            self.offer(slot, rule.value(&self.bounds));
        }
    }

    fn line(&self, n: usize, d: usize) -> String {
        let (below, above) = (self.bounds[number(n, d)], self.bounds[upper(n, d)]);
        if below == above {
            format!("A({n},{d}) = {below}")
        } else {
            format!("{below} <= A({n},{d}) <= {above}")
        }
    }
}

/// A code as a document states it.
struct Code {
    n: usize,
    d: usize,
    basis: Vec<u32>,
    representatives: Vec<u32>,
}

/// The lines of a submission up to `end`; texts that are no words, as those that are cited, are passed over.
fn read_code<'a>(lines: &mut impl Iterator<Item = &'a str>) -> Code {
    let mut code = Code { n: 0, d: 0, basis: Vec::new(), representatives: Vec::new() };
    let mut is_basis = false;
    for line in lines.take_while(|line| *line != "end") {
        if let Some(n) = line.strip_prefix("n = ") {
            code.n = n.parse().unwrap();
        } else if let Some(d) = line.strip_prefix("d = ") {
            code.d = d.parse().unwrap();
        }
        is_basis = line.starts_with("basis") || is_basis && !line.starts_with("representatives");
        let words = if is_basis { &mut code.basis } else { &mut code.representatives };
        if line.contains('0') {
            let texts = line.split('"').skip(1).step_by(2);
            words.extend(texts.filter_map(|word| u32::from_str_radix(word, 2).ok()));
        }
    }
    code
}

/// All sums of the words, that of none first.
fn sums(basis: &[u32]) -> Vec<u32> {
    let mut words = vec![0u32];
    for word in basis {
        words.extend(words.clone().iter().map(|other| other ^ word));
    }
    words
}

/// Whether each two words of the code are at distance d at least.
fn is_far(code: &Code) -> bool {
    let words = sums(&code.basis);
    code.representatives.iter().enumerate().all(|(i, first)| {
        let is_far_from = |second: &u32, words: &[u32]| words.iter().all(|word| (first ^ second ^ word).count_ones() as usize >= code.d);
        is_far_from(first, &words[1..]) && code.representatives[..i].iter().all(|second| is_far_from(second, &words))
    })
}

fn answer(input: &str, output: &mut impl Write) -> io::Result<()> {
    let mut table = Table::new();
    let mut lines = input.lines();
    while let Some(line) = lines.next() {
        let words: Vec<&str> = line.split(' ').collect();
        match words.as_slice() {
            ["submit", id] => {
                let code = read_code(&mut lines);
                assert!(is_far(&code));
                let size = (code.representatives.len() as u64) << code.basis.len();
                table.offer(number(code.n, code.d), size);
                table.close();
                writeln!(output, "accepted {id} size {size}")?;
            }
            ["show", n, d] => writeln!(output, "{}", table.line(n.parse().unwrap(), d.parse().unwrap()))?,
            ["table", d] => {
                let d = d.parse().unwrap();
                (1..=MAX_N).try_for_each(|n| writeln!(output, "{}", table.line(n, d)))?;
            }
            _ => {}
        }
    }
    Ok(())
}

/// The codes that a session hands in.
fn read_codes(input: &str) -> Vec<Code> {
    let mut lines = input.lines();
    let mut codes = Vec::new();
    while let Some(line) = lines.next() {
        if line.starts_with("submit ") {
            codes.push(read_code(&mut lines));
        }
    }
    codes
}

/// So many sixteenths of the words of a linear code.
fn sixteenths(code: &Code, count: usize) -> Option<Code> {
    let (basis, rest) = code.basis.split_at_checked(code.basis.len().checked_sub(4)?)?;
    let representatives = sums(rest)[..count].to_vec();
    Some(Code { basis: basis.to_vec(), representatives, ..*code })
}

fn print_submission(number: usize, code: &Code) {
    let Code { n, d, basis, representatives } = code;
    println!("submit p{number}\nkind = \"cosets\"\nn = {n}\nd = {d}\nbasis = [");
    basis.iter().for_each(|word| println!("\"{word:0n$b}\","));
    println!("]\nrepresentatives = [");
    representatives.iter().for_each(|word| println!("\"{word:0n$b}\","));
    println!("]\nend\nshow {n} {d}");
}

fn print_pieces(codes: &[Code]) {
    let growing = (9..=16).flat_map(|count| codes.iter().filter_map(move |code| sixteenths(code, count)));
    let smaller = (1..=8).cycle().flat_map(|count| codes.iter().filter_map(move |code| sixteenths(code, count)));
    for (number, code) in growing.chain(smaller).take(200).enumerate() {
        print_submission(number, &code);
    }
}

fn main() -> io::Result<()> {
    let words: Vec<String> = std::env::args().skip(1).collect();
    match words.iter().map(String::as_str).collect::<Vec<&str>>().as_slice() {
        ["tables"] => (3..=MAX_N).for_each(|d| println!("table {d}")),
        ["pieces", file] => print_pieces(&read_codes(&fs::read_to_string(file)?)),
        ["session"] => {
            let mut input = String::new();
            io::stdin().read_to_string(&mut input)?;
            answer(&input, &mut BufWriter::new(io::stdout().lock()))?;
        }
        _ => eprintln!("usage: plain_table tables | pieces FILE | session"),
    }
    Ok(())
}
