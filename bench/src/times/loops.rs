//! Loops over packets that are a part of the library's own module, in Rattle and in Rust.

use super::{batches, Line, Row};
use crate::library::*;
use crate::packets;
use crate::random::Random;
use crate::rounds::Batch;

// How many packets a loop goes over: so many that a processor does not learn them.
const PACKETS: usize = 4096;

// Each length of options about as often as any other.
const OPTIONS: [usize; 11] = [0, 4, 8, 12, 16, 20, 24, 28, 32, 36, 40];

pub fn each(libraries: &Libraries, line: &mut Line) {
    let mut random = Random::new(12);
    for (bytes, options, payload_len) in [("20", &OPTIONS[..1], 64), ("mixed", &OPTIONS[..], 64), ("mixed, no more", &OPTIONS[..], 0)] {
        let packets: Vec<Vec<u8>> = (0..PACKETS)
            .map(|_| {
                let options_len = options[random.below(options.len() as u64) as usize];
                packets::ipv4(&mut random, options_len, payload_len)
            })
            .collect();
        let slices = slices_of(&packets);
        let slices = &slices[..];
        let mut row = |what, batches| line(&Row { what, bytes: bytes.to_string(), least_calls: 4096, batches });
        row("loop: IPv4 view and two getters", batches!(libraries, over(loop_ipv4_views, slices)));
        row("loop: IPv4 read", batches!(libraries, over(loop_ipv4_reads, slices)));
        row("loop: IPv4 read and checksum", batches!(libraries, over(loop_ipv4_checksums, slices)));
        row("loop: IPv4 read, lowered, checksum anew, written", batches!(libraries, writing(loop_ipv4_forwards, slices)));
        row("loop: IPv4 read, lowered, checksum updated, written", batches!(libraries, writing(loop_ipv4_updates, slices)));
    }
    let mut mixed = |counts: &[usize]| -> Vec<Vec<u8>> {
        let mut packet = || {
            let count = counts[random.below(counts.len() as u64) as usize];
            packets::ipv6_with_chain(&mut random, count)
        };
        (0..PACKETS).map(|_| packet()).collect()
    };
    for (headers, counts) in [("0", &[0][..]), ("1", &[1]), ("3", &[3]), ("mixed 0 to 3", &[0, 0, 0, 1, 1, 2, 3])] {
        let packets = mixed(counts);
        let slices = slices_of(&packets);
        let slices = &slices[..];
        let mut row = |what, batches| line(&Row { what, bytes: headers.to_string(), least_calls: 4096, batches });
        if headers == "0" {
            row("loop: IPv6 view and two getters", batches!(libraries, over(loop_ipv6_views, slices)));
            row("loop: IPv6 read", batches!(libraries, over(loop_ipv6_reads, slices)));
        }
        row("loop: IPv6 walk past headers", batches!(libraries, over(loop_ipv6_walks, slices)));
        row("loop: IPv6 limited walk past headers", batches!(libraries, limited(loop_ipv6_limited_walks, slices)));
    }
}

fn slices_of(packets: &[Vec<u8>]) -> Vec<Slice> {
    packets.iter().map(|packet| Slice { at: packet.as_ptr(), len: packet.len() }).collect()
}

fn over<'a>(call: Loop, packets: &'a [Slice]) -> Box<Batch<'a>> {
    Box::new(move |calls| loops(calls, || unsafe { call(packets.as_ptr(), packets.len()) }))
}

fn writing<'a>(call: WritingLoop, packets: &'a [Slice]) -> Box<Batch<'a>> {
    Box::new(move |calls| {
        let mut room = [0; 60];
        loops(calls, || unsafe { call(packets.as_ptr(), packets.len(), &mut room) })
    })
}

fn limited<'a>(call: LimitedLoop, packets: &'a [Slice]) -> Box<Batch<'a>> {
    Box::new(move |calls| loops(calls, || unsafe { call(packets.as_ptr(), packets.len(), 8) }))
}

// So many packets, as whole loops.
fn loops(packets: u32, mut all_packets: impl FnMut() -> u64) -> u64 {
    (0..packets / PACKETS as u32).fold(0, |all: u64, _| all.wrapping_add(all_packets()))
}
