// All numbers of the Hamming scheme at n = 30, or of the Johnson schemes at n = 30 of every weight, as many times as asked, by the same
// recurrences as the program: `scheme_numbers krawtchouk 1000` or `scheme_numbers johnson 1000` prints a sum over them.

const BINOMIALS: [[u64; 31]; 31] = binomials();

const fn binomials() -> [[u64; 31]; 31] {
    let mut rows = [[0; 31]; 31];
    let mut n = 0;
    while n <= 30 {
        rows[n][0] = 1;
        let mut k = 1;
        while k <= n {
            rows[n][k] = rows[n - 1][k - 1] + rows[n - 1][k];
            k += 1;
        }
        n += 1;
    }
    rows
}

fn krawtchouk(n: u32, k: u32, i: u32) -> i128 {
    let slope = i64::from(n) - 2 * i64::from(i);
    let mut before = 0i64;
    let mut number = 1i64;
    for j in 0..k {
        let next = (slope * number - i64::from(n + 1 - j) * before) / i64::from(j + 1);
        before = number;
        number = next;
    }
    i128::from(number)
}

fn matchings(a: u32, b: u32, k: u32) -> u64 {
    let factorial: u64 = (1..=u64::from(k)).product();
    BINOMIALS[a as usize][k as usize] * BINOMIALS[b as usize][k as usize] * factorial
}

fn johnson(n: u32, w: u32, k: u32, i: u32) -> i128 {
    let first = (k + i).saturating_sub(w.min(n - w));
    let mut count = matchings(i, i, first) * matchings(w - i, n - w - i, k - first);
    let mut sum = if first % 2 == 0 { i128::from(count) } else { -i128::from(count) };
    for j in first..k.min(i) {
        let factor = u64::from((i - j) * (i - j) * (k - j));
        let divisor = u64::from((j + 1) * (w + j + 1 - i - k) * (n - w + j + 1 - i - k));
        count = count * factor / divisor;
        sum += if j % 2 == 1 { i128::from(count) } else { -i128::from(count) };
    }
    sum
}

fn mixed(sum: i64, number: i128) -> i64 {
    sum.wrapping_mul(31).wrapping_add(number as i64)
}

fn main() {
    let words: Vec<String> = std::env::args().collect();
    let turns: u32 = words[2].parse().unwrap();
    let mut sum = 0i64;
    for _ in 0..turns {
        if words[1] == "krawtchouk" {
            for k in 0..=30 {
                for i in 0..=30 {
                    sum = mixed(sum, krawtchouk(30, k, i));
                }
            }
        } else {
            for w in 0..=30u32 {
                let degree = w.min(30 - w);
                for k in 0..=degree {
                    for i in 0..=degree {
                        sum = mixed(sum, johnson(30, w, k, i));
                    }
                }
            }
        }
    }
    println!("{sum}");
}
