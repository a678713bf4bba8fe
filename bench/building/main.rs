//! `building compare | time ROUNDS | call COLUMN CALLS`: packets built in memory by the loops of `building.rt.txt` and `building.rs`,
//! which are linked in. `compare` wants the same bytes of both, `time` prints nanoseconds a packet, and `call` is for a program that
//! counts instructions.

#[path = "../src/random.rs"]
mod random;

use random::Random;
use std::hint::black_box;
use std::time::Instant;

const PACKETS: usize = 4096;
const NAMES: [&str; 2] = ["in Rust, lto", "proved"];
const ROOM: usize = 66000;

// A slice is laid out as a pointer and a length, as the loops take it.
#[allow(improper_ctypes)]
extern "C" {
    fn rust_packets(at: *const &[u8], count: usize, out: *mut u8, len: usize) -> u64;
    fn proved_packets(at: *const &[u8], count: usize, out: *mut u8, len: usize) -> u64;
}

fn sum(column: usize, plans: &[&[u8]], out: &mut [u8]) -> u64 {
    let (at, count) = (plans.as_ptr(), plans.len());
    unsafe {
        match column {
            0 => rust_packets(at, count, out.as_mut_ptr(), out.len()),
            _ => proved_packets(at, count, out.as_mut_ptr(), out.len()),
        }
    }
}

/// Packets of a third with a tag, both versions, UDP and TCP: half with up to 64 bytes of payload, the others with up to 1400; one in
/// so many with more than an IP header can count.
fn plans(seed: u64, count: usize, large: u64) -> Vec<Vec<u8>> {
    let mut random = Random::new(seed);
    (0..count)
        .map(|_| {
            let len = match (random.below(large), random.below(2)) {
                (0, _) => 65400 + random.below(200),
                (_, 0) => random.below(64),
                _ => random.below(1400),
            };
            let mut plan = vec![0; 48 + len as usize];
            random.fill(&mut plan);
            plan[0] = (random.below(2) | (random.below(3) / 2) << 1 | random.below(2) << 2) as u8;
            plan[4] &= 0xf;
            plan
        })
        .collect()
}

fn slices(plans: &[Vec<u8>]) -> Vec<&[u8]> {
    plans.iter().map(Vec::as_slice).collect()
}

fn compare() {
    let mut refused = 0;
    let mut total = 0;
    for seed in 1..17 {
        let plans = plans(seed, PACKETS, 64);
        for (number, plan) in slices(&plans).chunks(1).enumerate() {
            let mut outs = [vec![0xa5; ROOM], vec![0xa5; ROOM]];
            let room = if number % 7 == 0 { plan[0].len() + number % 64 } else { ROOM };
            let [rust, proved] = [0, 1].map(|column| sum(column, plan, &mut outs[column][..room]));
            assert!(rust == proved && outs[0] == outs[1], "packet {number} of seed {seed}");
            refused += usize::from(outs[0].iter().all(|&byte| byte == 0xa5));
            total += 1;
        }
    }
    println!("{total} plans give the same bytes, of which {refused} are refused.");
}

fn nanoseconds(column: usize, plans: &[&[u8]], out: &mut [u8]) -> f64 {
    let start = Instant::now();
    for _ in 0..8 {
        black_box(sum(column, black_box(plans), out));
    }
    start.elapsed().as_nanos() as f64 / (8 * plans.len()) as f64
}

fn median(values: &mut [f64]) -> f64 {
    values.sort_by(f64::total_cmp);
    values[values.len() / 2]
}

/// Rounds of batches, one of each column; from one round to the next another one is the first.
fn time(rounds: usize) {
    let plans = plans(9, PACKETS, u64::MAX);
    let plans = slices(&plans);
    let mut out = vec![0; ROOM];
    let mut times = [Vec::new(), Vec::new()];
    let mut ratios = Vec::new();
    for round in 0..rounds + 1 {
        let mut each = [0.0; 2];
        for turn in 0..2 {
            let column = (round + turn) % 2;
            each[column] = nanoseconds(column, &plans, &mut out);
        }
        if round == 0 {
            continue;
        }
        for column in 0..2 {
            times[column].push(each[column]);
        }
        ratios.push(each[1] / each[0]);
    }
    for column in 0..2 {
        let least = times[column].iter().fold(f64::MAX, |a, b| a.min(*b));
        println!("{:<14} {:7.2} ns a packet, at least {least:.2}", NAMES[column], median(&mut times[column]));
    }
    println!("{:<14} {:7.2}", "ratio", median(&mut ratios));
}

fn main() {
    let words: Vec<String> = std::env::args().skip(1).collect();
    let words: Vec<&str> = words.iter().map(String::as_str).collect();
    match words[..] {
        ["compare"] => compare(),
        ["time", rounds] => time(rounds.parse().expect("a number")),
        ["call", column, calls] => {
            let plans = plans(9, PACKETS, u64::MAX);
            let plans = slices(&plans);
            let mut out = vec![0; ROOM];
            for _ in 0..calls.parse().expect("a number") {
                black_box(sum(column.parse().expect("a number"), black_box(&plans), &mut out));
            }
        }
        _ => panic!("usage: building compare | time ROUNDS | call COLUMN CALLS"),
    }
}
