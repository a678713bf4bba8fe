//! IPv6 headers: viewed, read, written, refused, and the walks past the extension headers after them.

use super::{add, batches, Line};
use crate::library::*;
use crate::packets;
use crate::random::Random;
use crate::rounds::Batch;

// How many headers the limited walk may skip: more than there are.
const LIMIT: usize = 64;

pub fn each(libraries: &Libraries, line: &mut Line) {
    let mut random = Random::new(9);
    let packets: Vec<Vec<u8>> = (0..64).map(|_| packets::ipv6(&mut random)).collect();
    add(line, "IPv6 view and all getters", "40", batches!(libraries, views(ipv6_view, &packets)));
    add(line, "IPv6 read", "40", batches!(libraries, reads(ipv6_read, &packets)));
    let rewrites = |library: &Library| rewrites(library.ipv6_read, library.ipv6_write, &packets);
    let batches = [Some(rewrites(&libraries.upstream)), Some(rewrites(&libraries.lto)), None, Some(rewrites(&libraries.proved))];
    add(line, "IPv6 read and written", "40", batches);
    for count in [0, 1, 3, 30] {
        let headers = count.to_string();
        let chains: Vec<(u8, Vec<u8>)> = (0..64).map(|_| packets::chain(&mut random, count)).collect();
        add(line, "walk past headers", &headers, batches!(libraries, walks(ipv6_walk, &chains)));
        add(line, "limited walk past headers", &headers, batches!(libraries, limited_walks(ipv6_walk_up_to, &chains, LIMIT)));
    }
    let mixed: Vec<(u8, Vec<u8>)> = (0..1024)
        .map(|_| {
            let count = random.below(4) as usize;
            packets::chain(&mut random, count)
        })
        .collect();
    add(line, "walk past headers", "mixed 0 to 3", batches!(libraries, walks(ipv6_walk, &mixed)));
    add(line, "limited walk past headers", "mixed 0 to 3", batches!(libraries, limited_walks(ipv6_walk_up_to, &mixed, LIMIT)));

    let mut refused = |spoil: fn(&mut Vec<u8>)| -> Vec<Vec<u8>> {
        let mut packet = || {
            let mut bytes = packets::ipv6(&mut random);
            spoil(&mut bytes);
            bytes
        };
        (0..64).map(|_| packet()).collect()
    };
    let short = refused(|bytes| bytes.truncate(39));
    let other = refused(|bytes| bytes[0] = 0x45);
    for (why, packets) in [("below 40 bytes", &short), ("version", &other)] {
        add(line, "IPv6 view refused", why, batches!(libraries, refused_views(ipv6_view, packets)));
        add(line, "IPv6 read refused", why, batches!(libraries, refused_reads(ipv6_read, packets)));
    }
    for count in [1, 3] {
        let headers = count.to_string();
        let cut: Vec<(u8, Vec<u8>)> = (0..64)
            .map(|_| {
                let (first, mut bytes) = packets::chain(&mut random, count);
                bytes.truncate(bytes.len() - 21);
                (first, bytes)
            })
            .collect();
        add(line, "walk refused, its last header cut", &headers, batches!(libraries, refused_walks(ipv6_walk, &cut)));
    }
    let chains: Vec<(u8, Vec<u8>)> = (0..64).map(|_| packets::chain(&mut random, 3)).collect();
    add(line, "limited walk refused, one header too many", "3", batches!(libraries, refused_limited_walks(ipv6_walk_up_to, &chains, 2)));
}

fn views<'a>(call: ViewIpv6, packets: &'a [Vec<u8>]) -> Box<Batch<'a>> {
    Box::new(move |calls| {
        let mut all: u64 = 0;
        for number in 0..calls as usize {
            let packet = &packets[number % 64];
            let answer = unsafe { call(packet.as_ptr(), packet.len()) };
            all += u64::from(answer.view.flow_label) + u64::from(answer.view.dscp);
        }
        all
    })
}

fn reads<'a>(call: ReadIpv6, packets: &'a [Vec<u8>]) -> Box<Batch<'a>> {
    Box::new(move |calls| {
        let mut all: u64 = 0;
        for number in 0..calls as usize {
            let packet = &packets[number % 64];
            let answer = unsafe { call(packet.as_ptr(), packet.len()) };
            all += u64::from(answer.fields.flow_label) + answer.rest.len as u64;
        }
        all
    })
}

fn refused_views<'a>(call: ViewIpv6, packets: &'a [Vec<u8>]) -> Box<Batch<'a>> {
    Box::new(move |calls| {
        let mut all: u64 = 0;
        for number in 0..calls as usize {
            let packet = &packets[number % 64];
            let answer = unsafe { call(packet.as_ptr(), packet.len()) };
            all += answer.error.required_len as u64 + u64::from(answer.error.kind);
        }
        all
    })
}

fn refused_reads<'a>(call: ReadIpv6, packets: &'a [Vec<u8>]) -> Box<Batch<'a>> {
    Box::new(move |calls| {
        let mut all: u64 = 0;
        for number in 0..calls as usize {
            let packet = &packets[number % 64];
            let answer = unsafe { call(packet.as_ptr(), packet.len()) };
            all += answer.error.required_len as u64 + u64::from(answer.error.kind);
        }
        all
    })
}

// Each header is read, gets another hop limit, and is written.
fn rewrites<'a>(read: ReadIpv6, write: WriteIpv6, packets: &'a [Vec<u8>]) -> Box<Batch<'a>> {
    Box::new(move |calls| {
        let mut all: u64 = 0;
        for number in 0..calls as usize {
            let packet = &packets[number % 64];
            let mut answer = unsafe { read(packet.as_ptr(), packet.len()) };
            answer.fields.hop_limit = number as u8;
            let written = unsafe { write(&answer.fields) };
            all += u64::from(written.bytes[7]) + u64::from(written.len);
        }
        all
    })
}

fn walks<'a>(call: Walk, chains: &'a [(u8, Vec<u8>)]) -> Box<Batch<'a>> {
    Box::new(move |calls| {
        let mut all: u64 = 0;
        for number in 0..calls as usize {
            let (first, bytes) = &chains[number & (chains.len() - 1)];
            let answer = unsafe { call(bytes.as_ptr(), bytes.len(), *first) };
            all += answer.rest.offset as u64 + u64::from(answer.next_header);
        }
        all
    })
}

fn limited_walks<'a>(call: LimitedWalk, chains: &'a [(u8, Vec<u8>)], limit: usize) -> Box<Batch<'a>> {
    Box::new(move |calls| {
        let mut all: u64 = 0;
        for number in 0..calls as usize {
            let (first, bytes) = &chains[number & (chains.len() - 1)];
            let answer = unsafe { call(bytes.as_ptr(), bytes.len(), *first, limit) };
            all += answer.rest.offset as u64 + u64::from(answer.next_header);
        }
        all
    })
}

fn refused_walks<'a>(call: Walk, chains: &'a [(u8, Vec<u8>)]) -> Box<Batch<'a>> {
    Box::new(move |calls| {
        let mut all: u64 = 0;
        for number in 0..calls as usize {
            let (first, bytes) = &chains[number & (chains.len() - 1)];
            let answer = unsafe { call(bytes.as_ptr(), bytes.len(), *first) };
            all += answer.error.required_len as u64 + u64::from(answer.error.kind);
        }
        all
    })
}

fn refused_limited_walks<'a>(call: LimitedWalk, chains: &'a [(u8, Vec<u8>)], limit: usize) -> Box<Batch<'a>> {
    Box::new(move |calls| {
        let mut all: u64 = 0;
        for number in 0..calls as usize {
            let (first, bytes) = &chains[number & (chains.len() - 1)];
            let answer = unsafe { call(bytes.as_ptr(), bytes.len(), *first, limit) };
            all += answer.error.layer_start_offset as u64 + u64::from(answer.error.kind);
        }
        all
    })
}
