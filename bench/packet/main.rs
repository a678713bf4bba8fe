//! `packet compare | time ROUNDS | call COLUMN CALLS`: frames in memory, taken apart by the loops of `frames.rt.txt` and
//! `frames.rs`, which are linked in. `compare` wants the same sums of both, `time` prints nanoseconds a frame, and `call` is for a
//! program that counts instructions.

#[path = "../src/random.rs"]
mod random;

use random::Random;
use std::hint::black_box;
use std::time::Instant;

const FRAMES: usize = 4096;
const NAMES: [&str; 2] = ["in Rust, lto", "proved"];

// A slice is laid out as a pointer and a length, as the loops take it.
#[allow(improper_ctypes)]
extern "C" {
    fn rust_frames(at: *const &[u8], count: usize) -> u64;
    fn proved_frames(at: *const &[u8], count: usize) -> u64;
}

fn sum(column: usize, frames: &[&[u8]]) -> u64 {
    let (at, count) = (frames.as_ptr(), frames.len());
    unsafe {
        match column {
            0 => rust_frames(at, count),
            _ => proved_frames(at, count),
        }
    }
}

/// A payload, and its protocol.
fn segment(random: &mut Random, is_ipv4: bool) -> (Vec<u8>, u8) {
    let data = match random.below(4) {
        0 => random.below(64),
        1 => 64 + random.below(512),
        _ => 1000 + random.below(400),
    };
    let (protocol, header_len) = match random.below(100) {
        0..=59 => (6, 20 + 4 * random.below(4) * random.below(2)),
        60..=89 => (17, 8),
        90..=97 => (if is_ipv4 { 1 } else { 58 }, 8),
        _ => (89, 24),
    };
    let len = (header_len + data) as usize;
    let mut bytes = vec![0; len];
    random.fill(&mut bytes);
    match protocol {
        6 => bytes[12] = (header_len as u8 / 4) << 4,
        17 => bytes[4..6].copy_from_slice(&(len as u16).to_be_bytes()),
        _ => {}
    }
    (bytes, protocol)
}

fn ipv4(random: &mut Random) -> Vec<u8> {
    let (payload, protocol) = segment(random, true);
    let options = if random.below(20) == 0 { 4 * random.below(11) as usize } else { 0 };
    let mut packet = vec![0; 20 + options];
    random.fill(&mut packet);
    packet[0] = 0x45 + (options / 4) as u8;
    packet[2..4].copy_from_slice(&((20 + options + payload.len()) as u16).to_be_bytes());
    let fragment = if random.below(50) == 0 { 0x2000 | random.below(100) as u16 } else { 0x4000 };
    packet[6..8].copy_from_slice(&fragment.to_be_bytes());
    packet[9] = protocol;
    packet.extend(payload);
    packet
}

fn ipv6(random: &mut Random) -> Vec<u8> {
    let (payload, protocol) = segment(random, false);
    let mut first = protocol;
    let mut chain = Vec::new();
    match random.below(20) {
        0 => {
            first = 0;
            chain.extend([60, 0, 1, 4, 0, 0, 0, 0, protocol, 1, 1, 12, 0, 0, 0, 0, 0, 0, 0, 0, 0, 0, 0, 0]);
        }
        1 => {
            first = 44;
            let [high, low] = (8 * random.below(100) as u16 + 1).to_be_bytes();
            chain.extend([protocol, 0, high, low, 1, 2, 3, 4]);
        }
        2 => {
            first = 43;
            chain.extend([protocol, 0, 4, 0, 0, 0, 0, 0]);
        }
        _ => {}
    }
    let mut packet = vec![0; 40];
    random.fill(&mut packet);
    packet[0] = 0x60;
    packet[4..6].copy_from_slice(&((chain.len() + payload.len()) as u16).to_be_bytes());
    packet[6] = first;
    packet.extend(chain);
    packet.extend(payload);
    packet
}

/// A frame: two thirds without a tag, the others with one or two; two thirds IPv4, the others IPv6, and one in fifty another
/// protocol; padded to 60 bytes.
fn frame(random: &mut Random) -> Vec<u8> {
    let mut frame = vec![0; 12];
    random.fill(&mut frame);
    if random.below(3) == 0 {
        if random.below(3) == 0 {
            frame.extend([0x88, 0xa8, random.below(256) as u8, random.below(256) as u8]);
        }
        frame.extend([0x81, 0, random.below(256) as u8, random.below(256) as u8]);
    }
    if random.below(50) == 0 {
        frame.extend([8, 6]);
        frame.resize(frame.len() + 28, 7);
    } else if random.below(3) == 0 {
        frame.extend([0x86, 0xdd]);
        frame.extend(ipv6(random));
    } else {
        frame.extend([8, 0]);
        frame.extend(ipv4(random));
    }
    if frame.len() < 60 {
        frame.resize(60, 0);
    }
    frame
}

/// One frame in so many is damaged: cut anywhere, or one bit in its first 80 bytes is another.
fn frames(seed: u64, count: usize, damaged: u64) -> Vec<Vec<u8>> {
    let mut random = Random::new(seed);
    let damage = |random: &mut Random, frame: &mut Vec<u8>| match random.below(2) {
        0 => frame.truncate(random.below(frame.len() as u64) as usize),
        _ => {
            let place = random.below(80.min(frame.len() as u64)) as usize;
            frame[place] ^= 1 << random.below(8);
        }
    };
    (0..count)
        .map(|_| {
            let mut frame = frame(&mut random);
            if random.below(damaged) == 0 {
                damage(&mut random, &mut frame);
            }
            frame
        })
        .collect()
}

fn slices(frames: &[Vec<u8>]) -> Vec<&[u8]> {
    frames.iter().map(Vec::as_slice).collect()
}

fn compare() {
    let mut refused = 0;
    for seed in 0..64 {
        let frames = frames(1 + seed, FRAMES, 1 + seed % 3);
        for (number, frame) in slices(&frames).chunks(1).enumerate() {
            let [rust, proved] = [0, 1].map(|column| sum(column, frame));
            assert_eq!(rust, proved, "frame {number} of seed {}: {frame:02x?}", 1 + seed);
            refused += usize::from(rust == 1);
        }
        let all = slices(&frames);
        assert_eq!(sum(0, &all), sum(1, &all));
    }
    println!("{} frames give the same answers, of which {refused} are refused.", 64 * FRAMES);
}

fn nanoseconds(column: usize, frames: &[&[u8]]) -> f64 {
    let start = Instant::now();
    for _ in 0..8 {
        black_box(sum(column, black_box(frames)));
    }
    start.elapsed().as_nanos() as f64 / (8 * frames.len()) as f64
}

fn median(values: &mut [f64]) -> f64 {
    values.sort_by(f64::total_cmp);
    values[values.len() / 2]
}

/// Rounds of batches, one of each column; from one round to the next another one is the first.
fn time(rounds: usize) {
    let frames = frames(9, FRAMES, 50);
    let frames = slices(&frames);
    let mut times = [Vec::new(), Vec::new()];
    let mut ratios = Vec::new();
    for round in 0..rounds + 1 {
        let mut each = [0.0; 2];
        for turn in 0..2 {
            let column = (round + turn) % 2;
            each[column] = nanoseconds(column, &frames);
        }
        if round == 0 {
            continue;
        }
        for column in 0..2 {
            times[column].push(each[column]);
        }
        ratios.push(each[1] / each[0]);
    }
    for column in 0..2 {
        let least = times[column].iter().fold(f64::MAX, |a, b| a.min(*b));
        println!("{:<14} {:7.2} ns a frame, at least {least:.2}", NAMES[column], median(&mut times[column]));
    }
    println!("{:<14} {:7.2}", "ratio", median(&mut ratios));
}

fn main() {
    let words: Vec<String> = std::env::args().skip(1).collect();
    let words: Vec<&str> = words.iter().map(String::as_str).collect();
    match words[..] {
        ["compare"] => compare(),
        ["time", rounds] => time(rounds.parse().expect("a number")),
        ["call", column, calls] => {
            let frames = frames(9, FRAMES, 50);
            let frames = slices(&frames);
            for _ in 0..calls.parse().expect("a number") {
                black_box(sum(column.parse().expect("a number"), black_box(&frames)));
            }
        }
        _ => panic!("usage: packet compare | time ROUNDS | call COLUMN CALLS"),
    }
}
