//! What the table of bounds does, written plainly: the bounds of all entries closed under the rules by a worklist of slots, a support
//! added and taken out again. Prints how often each step asked a rule for its value, and its time. With `empty`, `nothing` or `golay`
//! and a number it makes a table and does the step so often, and prints nothing.

use std::collections::VecDeque;
use std::time::Instant;

const MAX_N: u32 = 30;
const MAX_BOUND: u64 = 1 << MAX_N;
const DISTANCES: usize = MAX_N as usize - 2;
const EVEN_DISTANCES: usize = MAX_N as usize / 2 - 1;
const ENTRIES: usize = entries_to(MAX_N as usize);
const ROWS: usize = MAX_N as usize + 1;

const fn entries_to(k: usize) -> usize {
    k * DISTANCES + EVEN_DISTANCES * (k * (k + 3) / 2)
}

#[derive(Clone, Copy)]
struct Entry {
    n: u32,
    d: u32,
    w: Option<u32>,
}

fn plain(n: u32, d: u32) -> Entry {
    Entry { n, d, w: None }
}

fn weighted(n: u32, d: u32, w: u32) -> Entry {
    Entry { n, d, w: Some(w) }
}

impl Entry {
    fn in_table(self) -> bool {
        let fits = self.w.is_none_or(|w| self.d % 2 == 0 && w <= self.n);
        1 <= self.n && self.n <= MAX_N && 3 <= self.d && self.d <= MAX_N && fits
    }

    fn number(self) -> usize {
        let in_length = match self.w {
            None => self.d as usize - 3,
            Some(w) => DISTANCES + (self.d as usize / 2 - 2) * (self.n as usize + 1) + w as usize,
        };
        entries_to(self.n as usize - 1) + in_length
    }
}

#[derive(Clone, Copy, PartialEq)]
enum Rule {
    Ground,
    L2,
    L3,
    L4,
    L5,
    L6,
    L7,
    L8,
    L9(u32),
    L11(u32, u32),
    M2,
    M3,
    M4,
    M5,
    M6,
    M7,
    M8,
    U1,
    U2,
    U3,
    U4,
    U5,
    U6,
    U7,
    U8,
    U9,
    U10(u32),
    V1,
    V2,
    V3,
    V4,
    V5,
    V6,
    V7,
    V8,
    Support(u32),
}

use Rule::*;

const LOWER: [Rule; 7] = [L2, L3, L4, L5, L6, L7, L8];
const UPPER: [Rule; 8] = [U1, U2, U3, U4, U5, U6, U7, U8];
const LOWER_BY_WEIGHT: [Rule; 7] = [M2, M3, M4, M5, M6, M7, M8];
const UPPER_BY_WEIGHT: [Rule; 8] = [V1, V2, V3, V4, V5, V6, V7, V8];

/// The rules of a slot that have no numbers, but the first.
fn rules_alone(upper: bool, e: Entry) -> &'static [Rule] {
    match (upper, e.w) {
        (false, None) => &LOWER,
        (true, None) => &UPPER,
        (false, Some(_)) => &LOWER_BY_WEIGHT,
        (true, Some(_)) => &UPPER_BY_WEIGHT,
    }
}

#[derive(Clone, Copy)]
enum Places {
    None,
    One(usize),
    Two(usize, usize),
}

#[derive(Clone, Copy)]
struct Line {
    upper: bool,
    entry: Entry,
    value: u32,
    rule: Rule,
    from: Places,
}

#[derive(Clone, Copy)]
struct Support {
    n: u32,
    d: u32,
    size: u32,
}

struct Table {
    supports: Vec<Option<Support>>,
    last_at: Vec<Option<u32>>,
    before: Vec<Option<u32>>,
    bounds: Vec<u32>,
    reasons: Vec<usize>,
    lines: Vec<Line>,
    base: usize,
    base_bounds: Vec<u32>,
    base_reasons: Vec<usize>,
    marks: Vec<bool>,
    queue: VecDeque<(bool, Entry)>,
    asked: u64,
}

fn slot(upper: bool, entry: Entry) -> usize {
    if upper { ENTRIES + entry.number() } else { entry.number() }
}

const BINOMIALS: [[u64; ROWS]; ROWS] = binomials();

const fn binomials() -> [[u64; ROWS]; ROWS] {
    let mut rows = [[0; ROWS]; ROWS];
    let mut n = 0;
    while n < ROWS {
        rows[n][0] = 1;
        let mut k = 1;
        while k <= n {
            rows[n][k] = rows[n - 1][k - 1] + rows[n - 1][k];
            k += 1;
        }
        n += 1;
    }
    rows
}

fn binomial(n: u32, k: u32) -> u64 {
    BINOMIALS[n as usize][k as usize]
}

fn ball(n: u32, e: u32) -> u64 {
    (0..=e.min(n)).map(|k| binomial(n, k)).sum()
}

/// U9 at an odd distance that is not above n, where it gives a bound; `around` is the bound of A(n,d+1,d).
fn johnson(n: u32, d: u32, around: u64) -> Option<u64> {
    let half = d.div_ceil(2);
    let most = u64::from(n / half);
    let rest = binomial(n, half).checked_sub(binomial(d, half - 1) * around)?;
    (rest > 0).then(|| (most << n) / (most * ball(n, half - 1) + rest))
}

/// V8, where some number of words is too many: one up to `last`, if any is.
fn by_columns(n: u32, d: u32, w: u32) -> Option<u64> {
    let spread = w.checked_sub(d / 2)?;
    let last = if w * w <= spread * n { n / (2 * d) } else { 1000 };
    let is_too_many = |m: &u32| {
        let (each, over) = (w * m / n, w * m % n);
        n * each * each.saturating_sub(1) + 2 * each * over > spread * m * (m - 1)
    };
    (2..=last).find(is_too_many).map(|m| u64::from(m - 1))
}

fn plotkin(n: u32, d: u32) -> Option<u64> {
    let (n, d) = (u64::from(n + d % 2), u64::from(d + d % 2));
    if d <= n && n < 2 * d {
        Some(2 * (d / (2 * d - n)))
    } else if n == 2 * d {
        Some(4 * d)
    } else {
        None
    }
}

/// The entries that a rule rests on.
fn rests_on(rule: Rule, e: Entry) -> (Option<Entry>, Option<Entry>) {
    let Entry { n, d, w } = e;
    match rule {
        L3 | U6 => (Some(plain(n - 1, d)), None),
        L4 => (Some(plain(n, d + 1)), None),
        L5 | U5 => (Some(plain(n - 1, d - 1)), None),
        L6 | U4 => (Some(plain(n + 1, d + 1)), None),
        L7 | U8 => (Some(plain(n + 1, d)), None),
        U7 => (Some(plain(n, d - 1)), None),
        L8 if d < 5 => (Some(plain(n / 2, d)), None),
        L8 => (Some(plain(n / 2, d.div_ceil(2))), Some(plain(n / 2, d))),
        L11(m, c) => (Some(plain(m, c)), Some(plain(n - m, d - c))),
        L9(w) => (Some(weighted(n, d + d % 2, w)), None),
        U9 => (Some(weighted(n, d + 1, d)), None),
        U10(w) => (Some(weighted(n, d, w)), None),
        _ => w.map_or((None, None), |w| rests_on_by_weight(rule, n, d, w)),
    }
}

/// The entries with weight that a rule of such an entry rests on.
fn rests_on_by_weight(rule: Rule, n: u32, d: u32, w: u32) -> (Option<Entry>, Option<Entry>) {
    match rule {
        M3 | V5 => (Some(weighted(n - 1, d, w)), None),
        M4 | V4 => (Some(weighted(n - 1, d, w - 1)), None),
        M5 => (Some(weighted(n + 1, d, w + 1)), None),
        M6 => (Some(weighted(n + 1, d, w)), None),
        M7 | V3 => (Some(weighted(n, d, n - w)), None),
        M8 => (Some(weighted(n, d + 2, w)), None),
        V6 => (Some(weighted(n - 1, d, w)), Some(weighted(n - 1, d, w - 1))),
        V7 => (Some(weighted(n, d - 2, w)), None),
        _ => (None, None),
    }
}

fn condition(rule: Rule, e: Entry) -> bool {
    match rule {
        L2 => e.d <= e.n,
        L5 => e.d % 2 == 0,
        L8 => e.n % 2 == 0,
        U1 => e.n < e.d,
        U2 => e.d <= e.n && plotkin(e.n, e.d).is_some(),
        U4 => e.d % 2 == 1,
        U9 => e.d % 2 == 1 && e.d <= e.n,
        U10(_) => e.d % 2 == 0,
        M2 | V2 => e.w == Some(e.d / 2),
        M4 | V4 | V6 => e.w != Some(0),
        V1 => e.w.is_some_and(|w| e.d > 2 * w.min(e.n - w)),
        _ => true,
    }
}

/// The entries that may rest on this one.
fn rested_on_by(rule: Rule, e: Entry) -> [Option<Entry>; 3] {
    let Entry { n, d, w } = e;
    match rule {
        L3 | U6 => [Some(plain(n + 1, d)), None, None],
        L4 => [Some(plain(n, d - 1)), None, None],
        L5 | U5 => [Some(plain(n + 1, d + 1)), None, None],
        L6 | U4 => [Some(plain(n - 1, d - 1)), None, None],
        L7 | U8 => [Some(plain(n - 1, d)), None, None],
        U7 => [Some(plain(n, d + 1)), None, None],
        L8 => [Some(plain(2 * n, d)), Some(plain(2 * n, 2 * d - 1)), Some(plain(2 * n, 2 * d))],
        _ => w.map_or([None, None, None], |w| rested_on_by_weight(rule, n, d, w)),
    }
}

/// The entries with weight that may rest on such an entry.
fn rested_on_by_weight(rule: Rule, n: u32, d: u32, w: u32) -> [Option<Entry>; 3] {
    match rule {
        M3 | V5 => [Some(weighted(n + 1, d, w)), None, None],
        M4 | V4 => [Some(weighted(n + 1, d, w + 1)), None, None],
        M5 if w > 0 => [Some(weighted(n - 1, d, w - 1)), None, None],
        M6 => [Some(weighted(n - 1, d, w)), None, None],
        M7 | V3 => [Some(weighted(n, d, n - w)), None, None],
        M8 => [Some(weighted(n, d - 2, w)), None, None],
        V6 => [Some(weighted(n + 1, d, w)), Some(weighted(n + 1, d, w + 1)), None],
        V7 => [Some(weighted(n, d + 2, w)), None, None],
        _ => [None, None, None],
    }
}

/// The rules by which entries without weight may rest on an entry with this weight.
fn rested_on_without_weight(upper: bool, Entry { n, d, .. }: Entry, w: u32) -> [(Rule, Entry); 2] {
    if upper {
        [(U10(w), plain(n, d)), (U9, plain(n, d - 1))]
    } else {
        [(L9(w), plain(n, d)), (L9(w), plain(n, d - 1))]
    }
}

fn number(supports: &[Option<Support>], rule: Rule, e: Entry, first: u64, second: u64) -> Option<u64> {
    let Entry { n, d, w } = e;
    let w = w.unwrap_or(0);
    Some(match rule {
        L2 => 2,
        L7 => first.div_ceil(2),
        L8 if d < 5 => (1 << (n / 2 - 1)) * first,
        L8 => first * second,
        L11(_, _) => first.min(second),
        U1 => 1,
        U2 => plotkin(n, d).unwrap_or(MAX_BOUND),
        U3 => (1 << n) / ball(n, (d - 1) / 2),
        U6 => 2 * first,
        U9 => return johnson(n, d, first),
        U10(w) => (first << (n - 1)) / binomial(n, w),
        M2 | V2 => u64::from(n / w),
        M5 => (u64::from(w + 1) * first).div_ceil(u64::from(n + 1)),
        M6 => (u64::from(n + 1 - w) * first).div_ceil(u64::from(n + 1)),
        V1 => 1,
        V4 => u64::from(n) * first / u64::from(w),
        V5 => u64::from(n) * first / u64::from(n - w),
        V6 => first + second,
        V8 => return by_columns(n, d, w),
        Rule::Support(place) => supports[place as usize].map_or(0, |s| u64::from(s.size)),
        _ => first,
    })
}

fn is_better(upper: bool, value: u64, stands: u32) -> bool {
    if upper { value < u64::from(stands) } else { value <= MAX_BOUND && value > u64::from(stands) }
}

impl Table {
    fn new() -> Table {
        let mut table = Table {
            supports: Vec::new(),
            last_at: vec![None; ENTRIES],
            before: Vec::new(),
            bounds: vec![0; 2 * ENTRIES],
            reasons: vec![0; 2 * ENTRIES],
            lines: Vec::new(),
            base: 0,
            base_bounds: Vec::new(),
            base_reasons: Vec::new(),
            marks: vec![false; 2 * ENTRIES],
            queue: VecDeque::new(),
            asked: 0,
        };
        for upper in [false, true] {
            for n in 1..=MAX_N {
                for d in 3..=MAX_N {
                    table.ground(upper, plain(n, d));
                    if d % 2 == 0 {
                        for w in 0..=n {
                            table.ground(upper, Entry { n, d, w: Some(w) });
                        }
                    }
                }
            }
        }
        table.close();
        table.base = table.lines.len();
        table.base_bounds = table.bounds.clone();
        table.base_reasons = table.reasons.clone();
        table
    }

    fn ground(&mut self, upper: bool, entry: Entry) {
        let value = match (upper, entry.w) {
            (false, _) => 1,
            (true, None) => 1 << entry.n,
            (true, Some(w)) => binomial(entry.n, w).min(MAX_BOUND) as u32,
        };
        self.asked += 1;
        self.put(Line { upper, entry, value, rule: Ground, from: Places::None });
        self.mark(upper, entry);
    }

    fn put(&mut self, line: Line) {
        let slot = slot(line.upper, line.entry);
        self.bounds[slot] = line.value;
        self.reasons[slot] = self.lines.len();
        self.lines.push(line);
    }

    fn mark(&mut self, upper: bool, entry: Entry) {
        let slot = slot(upper, entry);
        if !self.marks[slot] {
            self.marks[slot] = true;
            self.queue.push_back((upper, entry));
        }
    }

    fn bound(&self, upper: bool, entry: Entry) -> u32 {
        self.bounds[slot(upper, entry)]
    }

    /// What the rule gives, where it is defined and gives a bound.
    fn offer(&mut self, upper: bool, rule: Rule, e: Entry) -> Option<u64> {
        self.asked += 1;
        if !condition(rule, e) {
            return None;
        }
        let (first, second) = rests_on(rule, e);
        if !first.is_none_or(Entry::in_table) || !second.is_none_or(Entry::in_table) {
            return None;
        }
        let value = |p: Option<Entry>| p.map_or(0, |p| u64::from(self.bounds[slot(upper, p)]));
        number(&self.supports, rule, e, value(first), value(second))
    }

    /// Takes what the rule gives, where it is better.
    fn ask(&mut self, upper: bool, rule: Rule, e: Entry, best: &mut (Option<Rule>, u32)) {
        if let Some(value) = self.offer(upper, rule, e) {
            if is_better(upper, value, best.1) {
                *best = (Some(rule), value as u32);
            }
        }
    }

    /// The best rule at the slot, where it betters what stands, and its bound.
    fn pull(&mut self, upper: bool, e: Entry) -> Option<(Rule, u32)> {
        let mut best = (None, self.bound(upper, e));
        for rule in rules_alone(upper, e) {
            self.ask(upper, *rule, e, &mut best);
        }
        if e.w.is_none() {
            if upper {
                self.ask(upper, U9, e, &mut best);
            }
            for w in 0..=e.n {
                self.ask(upper, if upper { U10(w) } else { L9(w) }, e, &mut best);
            }
        }
        if !upper && e.w.is_none() && e.d >= 6 && e.d <= e.n {
            for m in 3..=e.n - 3 {
                for c in 3.max((e.d + m).saturating_sub(e.n))..=m.min(e.d - 3) {
                    self.asked += 1;
                    let value = self.bound(false, plain(m, c)).min(self.bound(false, plain(e.n - m, e.d - c)));
                    if value > best.1 {
                        best = (Some(L11(m, c)), value);
                    }
                }
            }
        }
        if !upper {
            let mut at = self.last_at[e.number()];
            while let Some(place) = at {
                self.ask(false, Rule::Support(place), e, &mut best);
                at = self.before[place as usize];
            }
        }
        best.0.map(|rule| (rule, best.1))
    }

    /// Marks the entry, where it is in the table and the rule gives something better there.
    fn test(&mut self, upper: bool, rule: Rule, e: Entry) {
        if e.in_table() && !self.marks[slot(upper, e)] {
            if let Some(value) = self.offer(upper, rule, e) {
                if is_better(upper, value, self.bound(upper, e)) {
                    self.mark(upper, e);
                }
            }
        }
    }

    fn mark_dependents(&mut self, upper: bool, e: Entry) {
        for rule in rules_alone(upper, e) {
            for dependent in rested_on_by(*rule, e).iter().flatten() {
                self.test(upper, *rule, *dependent);
            }
        }
        if let Some(w) = e.w {
            for (rule, dependent) in rested_on_without_weight(upper, e, w) {
                self.test(upper, rule, dependent);
            }
        }
        if !upper && e.w.is_none() && e.d <= e.n {
            let own = self.bound(false, e);
            for n in e.n + 3..=MAX_N {
                for d in e.d + 3..=MAX_N.min(e.d + n - e.n) {
                    self.asked += 1;
                    let value = own.min(self.bound(false, plain(n - e.n, d - e.d)));
                    if value > self.bound(false, plain(n, d)) {
                        self.mark(false, plain(n, d));
                    }
                }
            }
        }
    }

    fn close(&mut self) {
        while let Some((upper, e)) = self.queue.pop_front() {
            self.marks[slot(upper, e)] = false;
            if let Some((rule, value)) = self.pull(upper, e) {
                let place = |p: Entry| self.reasons[slot(upper, p)];
                let from = match rests_on(rule, e) {
                    (Some(p), Some(q)) => Places::Two(place(p), place(q)),
                    (Some(p), None) => Places::One(place(p)),
                    _ => Places::None,
                };
                self.put(Line { upper, entry: e, value, rule, from });
                self.mark_dependents(upper, e);
            }
        }
    }

    fn add(&mut self, support: Support) {
        let place = self.supports.len() as u32;
        let entry = plain(support.n, support.d);
        self.supports.push(Some(support));
        self.before.push(self.last_at[entry.number()]);
        self.last_at[entry.number()] = Some(place);
        let value = self.offer(false, Rule::Support(place), entry);
        if value.is_some_and(|value| is_better(false, value, self.bound(false, entry))) {
            self.mark(false, entry);
            self.close();
        }
    }

    /// Takes out the last support.
    fn remove(&mut self) {
        let place = self.supports.len() as u32 - 1;
        let base = self.base;
        let later = self.lines.split_off(base);
        self.bounds.copy_from_slice(&self.base_bounds);
        self.reasons.copy_from_slice(&self.base_reasons);
        let mut moved: Vec<Option<usize>> = Vec::with_capacity(later.len());
        for line in &later {
            let there = |p: usize| if p < base { Some(p) } else { moved[p - base] };
            let from = match line.from {
                Places::None => Some(Places::None),
                Places::One(p) => there(p).map(Places::One),
                Places::Two(p, q) => there(p).and_then(|p| there(q).map(|q| Places::Two(p, q))),
            };
            match from {
                Some(from) if line.rule != Rule::Support(place) => {
                    moved.push(Some(self.lines.len()));
                    self.put(Line { from, ..*line });
                }
                _ => moved.push(None),
            }
        }
        for line in &later {
            if is_better(line.upper, u64::from(line.value), self.bound(line.upper, line.entry)) {
                self.mark(line.upper, line.entry);
            }
        }
        if let Some(support) = self.supports.pop().flatten() {
            let entry = plain(support.n, support.d);
            self.last_at[entry.number()] = self.before.pop().flatten();
        }
        self.close();
    }
}

fn timed(name: &str, times: u32, mut step: impl FnMut() -> u64) {
    let start = Instant::now();
    let mut asked = 0;
    for _ in 0..times {
        asked = step();
    }
    let micros = start.elapsed().as_nanos() as f64 / f64::from(times) / 1000.0;
    println!("{name}: {asked} evaluations, {micros:.1} microseconds");
}

const GOLAY: Support = Support { n: 24, d: 8, size: 4096 };
const TWO_WORDS: Support = Support { n: 5, d: 3, size: 2 };

/// Makes a table, and adds and takes out the support, where there is one, so often.
fn repeat(support: Option<Support>, times: u32) {
    let mut table = Table::new();
    if let Some(support) = support {
        for _ in 0..times {
            table.add(support);
            table.remove();
        }
    }
    assert!(table.asked > 0);
}

fn report() {
    let mut table = Table::new();
    println!("{} lines", table.lines.len());
    timed("empty table", 100, || Table::new().asked);
    for (name, support) in [("Golay's code", GOLAY), ("two words that improve nothing", TWO_WORDS)] {
        for turn in 1..=3 {
            let before = table.asked;
            timed(&format!("{name} added, turn {turn}"), 1, || {
                table.add(support);
                table.asked - before
            });
            let before = table.asked;
            timed(&format!("{name} taken out, turn {turn}"), 1, || {
                table.remove();
                table.asked - before
            });
        }
    }
    for (n, d) in [(5, 3), (24, 8), (23, 7), (30, 3)] {
        println!("{} <= A({n},{d}) <= {}", table.bound(false, plain(n, d)), table.bound(true, plain(n, d)));
    }
}

fn main() {
    let words: Vec<String> = std::env::args().skip(1).collect();
    let times = words.iter().find_map(|w| w.parse().ok()).unwrap_or(1);
    let has = |name: &str| words.iter().any(|w| w == name);
    if has("empty") {
        repeat(None, times);
    } else if has("nothing") {
        repeat(Some(TWO_WORDS), times);
    } else if has("golay") {
        repeat(Some(GOLAY), times);
    } else {
        report();
    }
}
