//! What is timed.

mod ipv4;
mod ipv6;
mod loops;
mod sums;

use crate::library::Libraries;
use crate::rounds::Batch;

/// The Rust crate as a dependency is built, the same by link-time optimisation, Linux, and the proved library.
pub const COLUMNS: usize = 4;

/// The last column.
pub const PROVED: usize = COLUMNS - 1;

/// A line of the table: what is called, over how many bytes, and a batch of each column that has it.
pub struct Row<'a> {
    pub what: &'a str,
    pub bytes: String,
    /// How many calls a batch has at least.
    pub least_calls: u32,
    pub batches: [Option<Box<Batch<'a>>>; COLUMNS],
}

/// What is done with each line.
pub type Line<'a> = dyn FnMut(&Row) + 'a;

/// All lines, one after the other.
pub fn each(libraries: &Libraries, line: &mut Line) {
    sums::each(libraries, line);
    loops::each(libraries, line);
    ipv4::each(libraries, line);
    ipv6::each(libraries, line);
}

// A line whose batches have few calls.
fn add(line: &mut Line, what: &str, bytes: &str, batches: [Option<Box<Batch>>; COLUMNS]) {
    line(&Row { what, bytes: bytes.to_string(), least_calls: 16, batches });
}

/// The batches of a call that both builds of the Rust crate and the proved library have under one name.
macro_rules! batches {
    ($libraries:expr, $batch:ident($call:ident $(, $argument:expr)*)) => {
        [
            Some($batch($libraries.upstream.$call $(, $argument)*)),
            Some($batch($libraries.lto.$call $(, $argument)*)),
            None,
            Some($batch($libraries.proved.$call $(, $argument)*)),
        ]
    };
}

pub(crate) use batches;
