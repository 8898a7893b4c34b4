//! What the check of a large code costs, for comparison: `session` prints a session that submits 16,384 words of length 24 at distance at
//! least 4, for distance 3, `session-loop` times a plain double loop over the same words, and `session-rows` the search that `first_close_pair` does,
//! written plainly. `late`, `late-loop` and `late-rows` do so for words of which the last two alone are close, `weighted` and `weighted-loop` for 16,384 words of length 28 and weight 14 at distance 4, and `cosets` and
//! `cosets-loop` for five cosets of a linear code of 2^20 words, whose check takes 15,728,640 comparisons.

use std::hint::black_box;
use std::time::Instant;

/// Word i of these generators has a one at place i of its first 14 digits, and this number in its last 10. The numbers differ and each
/// has an odd number of ones, at least three, so each two sums of the generators are at distance at least 4.
const TAILS: [u32; 14] = [7, 11, 13, 14, 19, 21, 22, 25, 26, 28, 31, 35, 37, 38];

fn words() -> Vec<u32> {
    let mut words = vec![0];
    for (i, tail) in TAILS.iter().enumerate() {
        let generator = 1 << (23 - i) | tail;
        words.extend(words.clone().iter().map(|word| word ^ generator));
    }
    words
}

/// The last word is at distance 1 from the one before it, and so at distance at least 3 from all others.
fn late_words() -> Vec<u32> {
    let mut words = words();
    let last = words.len() - 1;
    words[last] = words[last - 1] ^ 1;
    words
}

/// The first words of length 28 and weight 14 whose places of ones add up to a multiple of 28: each two are at distance at least 4, since
/// two places that change one word into another at distance 2 would be equal modulo 28.
fn weighted_words() -> Vec<u32> {
    let sum_of_places = |word: u32| (0..28).filter(|place| word >> (27 - place) & 1 == 1).sum::<u32>();
    (0..1 << 28)
        .filter(|word: &u32| word.count_ones() == 14 && sum_of_places(*word) % 28 == 0)
        .take(16384)
        .collect()
}

/// A basis of a shortened Hamming code of length 28 with 2^23 words at distance 3: a one at place i, and at the last five places the
/// i-th number with at least two ones.
fn hamming_basis() -> Vec<u32> {
    let tails = (1..32u32).filter(|tail| tail.count_ones() >= 2);
    tails.take(23).enumerate().map(|(i, tail)| 1 << (27 - i) | tail).collect()
}

/// The first 20 words of that basis, and the sums of the others that stand for five cosets.
fn cosets() -> (Vec<u32>, Vec<u32>) {
    let mut basis = hamming_basis();
    let rest = basis.split_off(20);
    let representatives = vec![0, rest[0], rest[1], rest[0] ^ rest[1], rest[2]];
    (basis, representatives)
}

fn print_cosets(basis: &[u32], representatives: &[u32]) {
    println!("submit rows\nkind = \"cosets\"\nn = 28\nd = 3\nbasis = [");
    basis.iter().for_each(|word| println!("\"{word:028b}\","));
    println!("]\nrepresentatives = [");
    representatives.iter().for_each(|word| println!("\"{word:028b}\","));
    println!("]\nend");
}

/// All words by doubling, and each representative against all words after it.
fn time_cosets(basis: &[u32], representatives: &[u32]) {
    let start = Instant::now();
    let mut words = Vec::with_capacity(representatives.len() << basis.len());
    for representative in representatives {
        let first = words.len();
        words.push(*representative);
        for word in basis {
            for place in first..words.len() {
                words.push(words[place] ^ word);
            }
        }
    }
    let words = black_box(words);
    let d = black_box(3);
    let pair = (0..representatives.len()).map(|a| a << basis.len()).find_map(|i| {
        let more = words[i + 1..].iter().position(|word| (words[i] ^ word).count_ones() < d)?;
        Some((i, i + 1 + more))
    });
    println!("plain loop: {pair:?} after {:.3} s", start.elapsed().as_secs_f64());
}

fn print_weighted(words: &[u32]) {
    println!("submit rows\nkind = \"words\"\nn = 28\nd = 4\nw = 14\nwords = [");
    words.iter().for_each(|word| println!("\"{word:028b}\","));
    println!("]\nend");
}

fn time_weighted(words: &[u32]) {
    let start = Instant::now();
    let wrong = black_box(words).iter().position(|word| word.count_ones() != 14);
    let pair = first_close_pair(black_box(words), black_box(4));
    println!("plain loop: {wrong:?} {pair:?} after {:.2} s", start.elapsed().as_secs_f64());
}

fn print_session(words: &[u32]) {
    println!("submit rows\nkind = \"words\"\nn = 24\nd = 3\nwords = [");
    for word in words {
        println!("\"{word:024b}\",");
    }
    println!("]\nend");
}

fn time_loop(words: &[u32]) {
    let start = Instant::now();
    let pair = first_close_pair(black_box(words), black_box(3));
    println!("plain loop: {pair:?} after {:.2} s", start.elapsed().as_secs_f64());
}

fn time_rows(words: &[u32]) {
    let start = Instant::now();
    let pair = first_close_pair_by_rows(black_box(words), black_box(3));
    println!("plain rows: {pair:?} after {:.3} s", start.elapsed().as_secs_f64());
}

/// Block after block of 64 words, each against all words before the first of the least pair so far: of each hexadecimal digit of the block's words,
/// and each value of such a digit, a row has how many binary digits differ, and eight rows add up to the distances from a word.
fn first_close_pair_by_rows(words: &[u32], d: u32) -> Option<(usize, usize)> {
    let limit = d.min(33) as u8;
    let mut rows = [[[0u8; 64]; 16]; 8];
    let mut least: Option<(usize, usize)> = None;
    for (block, later) in words.chunks(64).enumerate() {
        let start = block * 64;
        for (digit, values) in rows.iter_mut().enumerate() {
            for (value, row) in values.iter_mut().enumerate() {
                for (number, word) in row.iter_mut().zip(later) {
                    *number = ((word >> (4 * digit) & 15) ^ value as u32).count_ones() as u8;
                }
            }
        }
        let first = least.map_or(start, |pair| pair.0);
        let across = words[..first].iter().enumerate().find_map(|(i, word)| {
            let mut distances = [0u8; 64];
            for (digit, values) in rows.iter().enumerate() {
                let row = &values[(word >> (4 * digit) & 15) as usize];
                distances.iter_mut().zip(row).for_each(|(sum, number)| *sum += number);
            }
            let close = |distances: &[u8]| distances.iter().position(|distance| *distance < limit);
            let far = distances.iter().fold(true, |far, distance| far & (*distance >= limit));
            if far { None } else { Some((i, start + close(&distances[..later.len()])?)) }
        });
        least = across.or(least).or_else(|| {
            let (i, j) = first_close_pair(later, d)?;
            Some((start + i, start + j))
        });
    }
    least
}

fn first_close_pair(words: &[u32], d: u32) -> Option<(usize, usize)> {
    for i in 0..words.len() {
        for j in i + 1..words.len() {
            if (words[i] ^ words[j]).count_ones() < d {
                return Some((i, j));
            }
        }
    }
    None
}

fn main() {
    match std::env::args().nth(1).as_deref() {
        Some("session") => print_session(&words()),
        Some("session-loop") => time_loop(&words()),
        Some("session-rows") => time_rows(&words()),
        Some("late") => print_session(&late_words()),
        Some("late-loop") => time_loop(&late_words()),
        Some("late-rows") => time_rows(&late_words()),
        Some("weighted") => print_weighted(&weighted_words()),
        Some("weighted-loop") => time_weighted(&weighted_words()),
        Some("cosets") => print_cosets(&cosets().0, &cosets().1),
        Some("cosets-loop") => time_cosets(&cosets().0, &cosets().1),
        _ => eprintln!("session, late, weighted or cosets, each also with -loop, session and late with -rows"),
    }
}
