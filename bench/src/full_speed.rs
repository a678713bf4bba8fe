//! Rounds at full speed alone, for a machine that is shared: another program on the same core halves a processor's speed.

use std::ffi::c_int;
use std::time::{Duration, Instant};

extern "C" {
    fn sched_setaffinity(process: c_int, size: usize, processors: *const u64) -> c_int;
}

/// Which processors run at full speed, by the time of a cycle.
pub struct FullSpeed {
    // The greatest time of a cycle in nanoseconds; without it every processor counts.
    greatest: Option<f64>,
    processors: usize,
    processor: usize,
}

impl FullSpeed {
    /// By the variable FULL_SPEED: the greatest time of a cycle in nanoseconds, for processors that are at full speed.
    pub fn from_environment() -> FullSpeed {
        FullSpeed {
            greatest: std::env::var("FULL_SPEED").ok().map(|text| text.parse().expect("nanoseconds in FULL_SPEED")),
            processors: std::fs::read_to_string("/proc/cpuinfo").map_or(1, |text| text.matches("processor\t").count()),
            processor: 0,
        }
    }

    /// Waits for a processor at full speed, and moves there. Returns whether it had to move.
    pub fn wait(&mut self) -> bool {
        let mut has_moved = false;
        while !self.holds() {
            self.processor = (self.processor + 1) % self.processors;
            let only: u64 = 1 << self.processor;
            if self.processor == 0 {
                std::thread::sleep(Duration::from_millis(1));
            }
            assert_eq!(unsafe { sched_setaffinity(0, 8, &only) }, 0, "no way to processor {}", self.processor);
            has_moved = true;
        }
        has_moved
    }

    /// Whether the processor is at full speed now.
    pub fn holds(&self) -> bool {
        self.greatest.map_or(true, |greatest| nanoseconds_of_a_cycle(50_000) <= greatest)
    }
}

/// How long one cycle takes: a turn of this loop waits for the one before, which takes one.
pub fn nanoseconds_of_a_cycle(turns: u64) -> f64 {
    let start = Instant::now();
    unsafe {
        std::arch::asm!("2:", "dec {0}", "jnz 2b", inout(reg) turns => _);
    }
    start.elapsed().as_nanos() as f64 / turns as f64
}
