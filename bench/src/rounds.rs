//! Rounds of batches, one of each library, in turns.

use crate::full_speed::{nanoseconds_of_a_cycle, FullSpeed};
use crate::times::{Row, COLUMNS, PROVED};
use std::hint::black_box;
use std::time::Instant;

/// So many calls of one library; what they answered, together.
pub type Batch<'a> = dyn Fn(u32) -> u64 + 'a;

/// What the rounds of a row say: nanoseconds a call, as the median of each column; and the time of the proved library as a part
/// of each other column's in the same round, as the median.
pub struct Figures {
    pub nanoseconds: [Option<f64>; COLUMNS],
    pub ratios: [Option<f64>; COLUMNS - 1],
}

// How long a batch takes at least.
const BATCH_NANOSECONDS: f64 = 150_000.0;

/// Times all columns in each round; from one round to the next another one is the first. A round counts if the processor is at
/// full speed before and after it, but for the first round on another processor, whose caches have nothing of it.
pub fn compare_times(rounds: usize, row: &Row) -> Figures {
    let columns: Vec<usize> = (0..COLUMNS).filter(|column| row.batches[*column].is_some()).collect();
    let calls = calls_of_a_batch(row);
    let mut times: [Vec<f64>; COLUMNS] = Default::default();
    let mut ratios: [Vec<f64>; COLUMNS] = Default::default();
    let mut full_speed = FullSpeed::from_environment();
    let mut round = 0;
    while round < rounds {
        let is_cold = full_speed.wait();
        let mut each = [0.0; COLUMNS];
        for turn in 0..columns.len() {
            let column = columns[(round + turn) % columns.len()];
            each[column] = nanoseconds(row, column, calls) / f64::from(calls);
        }
        if is_cold || !full_speed.holds() {
            continue;
        }
        for column in &columns {
            times[*column].push(each[*column]);
            ratios[*column].push(each[PROVED] / each[*column]);
        }
        round += 1;
    }
    let [first, second, third, _] = ratios;
    Figures {
        nanoseconds: times.map(median),
        ratios: [first, second, third].map(median),
    }
}

/// How long one cycle takes, as the median of many measurements, each on a processor at full speed.
pub fn median_of_a_cycle() -> f64 {
    let mut full_speed = FullSpeed::from_environment();
    let times = (0..101).map(|_| {
        full_speed.wait();
        nanoseconds_of_a_cycle(1_000_000)
    });
    median(times.collect()).unwrap_or(0.0)
}

fn calls_of_a_batch(row: &Row) -> u32 {
    let mut calls = row.least_calls;
    while nanoseconds(row, PROVED, calls) < BATCH_NANOSECONDS && calls < 1 << 24 {
        calls *= 2;
    }
    for column in 0..COLUMNS {
        nanoseconds(row, column, calls);
    }
    calls
}

fn nanoseconds(row: &Row, column: usize, calls: u32) -> f64 {
    let start = Instant::now();
    if let Some(batch) = &row.batches[column] {
        black_box(batch(black_box(calls)));
    }
    start.elapsed().as_nanos() as f64
}

/// The value in the middle, or between the two in the middle.
pub fn median(mut values: Vec<f64>) -> Option<f64> {
    values.sort_by(f64::total_cmp);
    let (below, above) = (values.get(values.len().checked_sub(1)? / 2)?, values.get(values.len() / 2)?);
    Some((below + above) / 2.0)
}
