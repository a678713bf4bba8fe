//! `headers compare | time ROUNDS | call COLUMN CALLS`: TCP headers in memory, read by the loops of `headers.rt.txt` and `headers.rs`,
//! which are linked in. `compare` wants the same sums of both, `time` prints nanoseconds a header, and `call` is for a program that
//! counts instructions.

#[path = "../src/random.rs"]
mod random;

use random::Random;
use std::hint::black_box;
use std::time::Instant;

const HEADERS: usize = 4096;
const NAMES: [&str; 2] = ["in Rust, lto", "proved"];

// A slice is laid out as a pointer and a length, as the loops take it.
#[allow(improper_ctypes)]
extern "C" {
    fn rust_headers(at: *const &[u8], count: usize) -> u64;
    fn proved_headers(at: *const &[u8], count: usize) -> u64;
}

fn sum(column: usize, headers: &[&[u8]]) -> u64 {
    let (at, count) = (headers.as_ptr(), headers.len());
    unsafe {
        match column {
            0 => rust_headers(at, count),
            _ => proved_headers(at, count),
        }
    }
}

/// An option as a sender writes it.
fn option(random: &mut Random, kind: u64) -> Vec<u8> {
    let mut bytes = match kind {
        1 => return vec![1],
        2 => vec![2, 4, 0, 0],
        3 => vec![3, 3, 0],
        4 => return vec![4, 2],
        5 => {
            let blocks = 1 + random.below(3) as usize;
            let mut bytes = vec![0; 2 + 8 * blocks];
            bytes[..2].copy_from_slice(&[5, 2 + 8 * blocks as u8]);
            bytes
        }
        _ => {
            let mut bytes = vec![0; 10];
            bytes[..2].copy_from_slice(&[8, 10]);
            bytes
        }
    };
    random.fill(&mut bytes[2..]);
    bytes
}

/// A header: of ten, two have no options, two are a SYN, three have timestamps, two have blocks beside them, and one has options in
/// no order. 8 bytes follow it.
fn header(random: &mut Random) -> Vec<u8> {
    let kinds: &[u64] = match random.below(10) {
        0 | 1 => &[],
        2 | 3 => &[2, 4, 8, 1, 3],
        4..=6 => &[1, 1, 8],
        7 | 8 => &[1, 1, 8, 1, 1, 5],
        _ => &[0],
    };
    let mut options = Vec::new();
    for &kind in kinds {
        match kind {
            0 => (0..random.below(4)).for_each(|_| {
                let kind = [1, 2, 3, 4, 5, 8][random.below(6) as usize];
                options.extend(option(random, kind));
            }),
            _ => options.extend(option(random, kind)),
        }
    }
    options.truncate(40);
    options.resize(options.len().div_ceil(4) * 4, 0);
    let mut bytes = vec![0; 20];
    random.fill(&mut bytes);
    bytes[12] = ((20 + options.len()) as u8 / 4) << 4;
    bytes.extend(options);
    bytes.extend([0; 8]);
    bytes
}

/// One header in so many is damaged: cut anywhere, or one bit of its length or its options is another.
fn headers(seed: u64, count: usize, damaged: u64) -> Vec<Vec<u8>> {
    let mut random = Random::new(seed);
    (0..count)
        .map(|_| {
            let mut bytes = header(&mut random);
            if random.below(damaged) == 0 {
                let place = 12 + random.below(bytes.len() as u64 - 12) as usize;
                match random.below(3) {
                    0 => bytes.truncate(place),
                    _ => bytes[place] ^= 1 << random.below(8),
                }
            }
            bytes
        })
        .collect()
}

fn slices(headers: &[Vec<u8>]) -> Vec<&[u8]> {
    headers.iter().map(Vec::as_slice).collect()
}

fn compare() {
    let mut refused = 0;
    for seed in 1..65 {
        let headers = headers(seed, HEADERS, 1 + seed % 3);
        for (number, header) in slices(&headers).chunks(1).enumerate() {
            let [rust, proved] = [0, 1].map(|column| sum(column, header));
            assert_eq!(rust, proved, "header {number} of seed {seed}: {header:02x?}");
            refused += usize::from(rust == 1);
        }
    }
    let all = headers(65, HEADERS, 50);
    let [rust, proved] = [0, 1].map(|column| sum(column, &slices(&all)));
    println!("{} headers give the same answers, of which {refused} are refused.", 64 * HEADERS);
    println!("{} {rust:016x}, {} {proved:016x}", NAMES[0], NAMES[1]);
    assert_eq!(rust, proved);
}

fn nanoseconds(column: usize, headers: &[&[u8]]) -> f64 {
    let start = Instant::now();
    for _ in 0..8 {
        black_box(sum(column, black_box(headers)));
    }
    start.elapsed().as_nanos() as f64 / (8 * headers.len()) as f64
}

fn median(values: &mut [f64]) -> f64 {
    values.sort_by(f64::total_cmp);
    values[values.len() / 2]
}

/// Rounds of batches, one of each column; from one round to the next another one is the first.
fn time(rounds: usize) {
    let headers = headers(9, HEADERS, 50);
    let headers = slices(&headers);
    let mut times = [Vec::new(), Vec::new()];
    let mut ratios = Vec::new();
    for round in 0..rounds + 1 {
        let mut each = [0.0; 2];
        for turn in 0..2 {
            let column = (round + turn) % 2;
            each[column] = nanoseconds(column, &headers);
        }
        if round == 0 {
            continue;
        }
        for column in 0..2 {
            times[column].push(each[column]);
        }
        ratios.push(each[1] / each[0]);
    }
    for column in 0..2 {
        let least = times[column].iter().fold(f64::MAX, |a, b| a.min(*b));
        println!("{:<14} {:7.2} ns a header, at least {least:.2}", NAMES[column], median(&mut times[column]));
    }
    println!("{:<14} {:7.2}", "ratio", median(&mut ratios));
}

fn main() {
    let words: Vec<String> = std::env::args().skip(1).collect();
    let words: Vec<&str> = words.iter().map(String::as_str).collect();
    match words[..] {
        ["compare"] => compare(),
        ["time", rounds] => time(rounds.parse().expect("a number")),
        ["call", column, calls] => {
            let headers = headers(9, HEADERS, 50);
            let headers = slices(&headers);
            for _ in 0..calls.parse().expect("a number") {
                black_box(sum(column.parse().expect("a number"), black_box(&headers)));
            }
        }
        _ => panic!("usage: headers compare | time ROUNDS | call COLUMN CALLS"),
    }
}
