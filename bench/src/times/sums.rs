//! Sums of slices, and checksums after a field has changed.

use super::{batches, Line, Row, COLUMNS, PROVED};
use crate::library::*;
use crate::random::Random;
use crate::rounds::Batch;
use std::cell::Cell;

// Lengths that vary, as traffic's do.
const MIXED: [(&str, usize, usize, usize); 5] = [
    ("0 to 64", 0, 64, 1),
    ("20 to 60 by 4", 20, 60, 4),
    ("40 to 300", 40, 300, 1),
    ("64 to 1500", 64, 1_500, 1),
    ("1400 to 1500", 1_400, 1_500, 1),
];

const LENGTHS: [usize; 21] = [
    8, 16, 20, 32, 40, 60, 64, 96, 128, 192, 256, 280, 288, 384, 576, 768, 1_024, 1_500, 3_000, 9_000, 65_535,
];

// A quarter more or less than each of these, for the figure.
const AROUND: [usize; 15] = [8, 16, 32, 48, 64, 96, 128, 192, 256, 384, 512, 768, 1_024, 1_500, 3_000];

// How many slices of mixed lengths there are: so many that a processor does not learn them.
const PLACES: usize = 1 << 14;

// Bytes of which the mixed slices are parts; they fit the nearest cache.
const MIXED_ROOM: usize = 1 << 14;

/// A sum of a slice, of any width and any answer.
trait Sum: Copy {
    fn sum(self, start: u64, at: *const u8, len: usize) -> u64;
}

macro_rules! sums {
    ($($call:ty: $start:ty,)*) => {
        $(impl Sum for $call {
            #[inline(always)]
            fn sum(self, start: u64, at: *const u8, len: usize) -> u64 {
                u64::from(unsafe { self(start as $start, at, len) })
            }
        })*
    };
}

sums! {
    AddSlice64: u64,
    AddSlice32: u32,
    Checksum64: u64,
    Checksum32: u32,
}

// The batches of both builds of the Rust crate, of Linux where it is there, and of the proved library.
macro_rules! beside_linux {
    ($libraries:expr, $linux:ident, $batch:ident($call:ident $(, $argument:expr)*)) => {{
        let mut all: [Option<Box<Batch>>; COLUMNS] = batches!($libraries, $batch($call $(, $argument)*));
        all[2] = $libraries.linux.map(|linux| $batch(linux.$linux $(, $argument)*));
        all
    }};
}

pub fn each(libraries: &Libraries, line: &mut Line) {
    let mut random = Random::new(3);
    let mut room = vec![0; 65_600];
    random.fill(&mut room);
    let room = &room[..];
    for (lengths, least, most, step) in MIXED {
        let places = places(&mut random, least, most, step);
        let places = &places[..];
        let mut row = |what, batches| line(&Row { what, bytes: lengths.to_string(), least_calls: 1024, batches });
        row(
            "sum of 64 bits, checksum, mixed",
            beside_linux!(libraries, checksum, mixed(u64_16bit_word_checksum, room, places)),
        );
        row(
            "sum of 64 bits, add_slice, mixed",
            beside_linux!(libraries, add_slice, mixed(u64_16bit_word_add_slice, room, places)),
        );
        row(
            "sum of 32 bits, checksum, mixed",
            beside_linux!(libraries, checksum, mixed(u32_16bit_word_checksum, room, places)),
        );
        row(
            "sum of 32 bits, add_slice, mixed",
            beside_linux!(libraries, add_slice, mixed(u32_16bit_word_add_slice, room, places)),
        );
    }
    for len in LENGTHS {
        let bytes = &room[..len];
        let mut row = |what, batches| line(&Row { what, bytes: len.to_string(), least_calls: 16, batches });
        row(
            "sum of 64 bits, checksum, constant",
            beside_linux!(libraries, checksum, constant(u64_16bit_word_checksum, bytes)),
        );
        row(
            "sum of 64 bits, add_slice, constant",
            beside_linux!(libraries, add_slice, constant(u64_16bit_word_add_slice, bytes)),
        );
        row(
            "sum of 32 bits, checksum, constant",
            beside_linux!(libraries, checksum, constant(u32_16bit_word_checksum, bytes)),
        );
        row(
            "sum of 64 bits, one after the other",
            beside_linux!(libraries, checksum, chained(u64_16bit_word_checksum, bytes)),
        );
    }
    for len in AROUND {
        let places = places(&mut random, len - len / 4, len + len / 4, 1);
        let places = &places[..];
        line(&Row {
            what: "sum of 64 bits, checksum, around",
            bytes: len.to_string(),
            least_calls: 1024,
            batches: beside_linux!(libraries, checksum, mixed(u64_16bit_word_checksum, room, places)),
        });
    }
    let own = libraries.own;
    changed_line(libraries, line, "checksum after 4 bytes changed", &room[..20], own.update_4bytes);
    changed_line(libraries, line, "checksum after 16 bytes changed", &room[..104], own.update_16bytes);
}

/// An update of a checksum by the old and the new bytes of a field.
type Update<const N: usize> = unsafe extern "C" fn(u16, &[u8; N], &[u8; N]) -> u16;

// The proved library updates the checksum. The others have no such call: they sum anew all bytes that it is over.
fn changed_line<const N: usize>(libraries: &Libraries, line: &mut Line, what: &str, bytes: &[u8], update: Update<N>) {
    let mut random = Random::new(12);
    let mut fields = [[0; N]; 64];
    for field in &mut fields {
        random.fill(field);
    }
    let mut batches = beside_linux!(libraries, checksum, constant(u64_16bit_word_checksum, bytes));
    batches[PROVED] = Some(updates(update, &fields));
    line(&Row { what, bytes: bytes.len().to_string(), least_calls: 64, batches });
}

// Each field becomes the one behind it.
fn updates<'a, const N: usize>(update: Update<N>, fields: &'a [[u8; N]; 64]) -> Box<Batch<'a>> {
    Box::new(move |calls| {
        let mut all = 0u64;
        for number in 0..calls as usize {
            let (old, new) = (&fields[number % 64], &fields[(number + 1) % 64]);
            all += u64::from(unsafe { update(number as u16, old, new) });
        }
        all
    })
}

// Offsets and lengths, each as likely as any other.
fn places(random: &mut Random, least: usize, most: usize, step: usize) -> Vec<(u16, u16)> {
    let mut place = || {
        let len = least + step * random.below(((most - least) / step + 1) as u64) as usize;
        (random.below((MIXED_ROOM - len) as u64) as u16, len as u16)
    };
    (0..PLACES).map(|_| place()).collect()
}

// Slices of mixed lengths at mixed places. A batch goes on where the last one stopped.
fn mixed<'a, S: Sum + 'a>(sum: S, room: &'a [u8], places: &'a [(u16, u16)]) -> Box<Batch<'a>> {
    let next = Cell::new(0);
    Box::new(move |calls| {
        let (mut all, mut number) = (0u64, next.get());
        for _ in 0..calls {
            let (offset, len) = places[number % PLACES];
            let bytes = &room[usize::from(offset)..][..usize::from(len)];
            all = all.wrapping_add(sum.sum(0, bytes.as_ptr(), bytes.len()));
            number += 1;
        }
        next.set(number % PLACES);
        all
    })
}

// The same bytes over and over.
fn constant<'a, S: Sum + 'a>(sum: S, bytes: &'a [u8]) -> Box<Batch<'a>> {
    Box::new(move |calls| {
        let mut all = 0u64;
        for _ in 0..calls {
            all = all.wrapping_add(sum.sum(0, bytes.as_ptr(), bytes.len()));
        }
        all
    })
}

// The same bytes over and over, each from the answer before, for which it has to wait.
fn chained<'a, S: Sum + 'a>(sum: S, bytes: &'a [u8]) -> Box<Batch<'a>> {
    Box::new(move |calls| {
        let mut start = 0;
        for _ in 0..calls {
            start = sum.sum(start, bytes.as_ptr(), bytes.len());
        }
        start
    })
}
