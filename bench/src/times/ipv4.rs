//! IPv4 headers: viewed, read, written, refused, and their checksums.

use super::{add, batches, Line};
use crate::compare::fields_with_options;
use crate::library::*;
use crate::packets;
use crate::random::Random;
use crate::rounds::Batch;

pub fn each(libraries: &Libraries, line: &mut Line) {
    for (bytes, packets) in &all_packets() {
        add(line, "IPv4 view and all getters", bytes, batches!(libraries, views(ipv4_view, packets)));
    }
    for (bytes, packets) in &all_packets() {
        add(line, "IPv4 read", bytes, batches!(libraries, reads(ipv4_read, packets)));
    }
    for (bytes, packets) in &all_packets() {
        let rewrites = |library: &Library| rewrites(library.ipv4_read, library.ipv4_write, packets);
        let batches = [Some(rewrites(&libraries.upstream)), Some(rewrites(&libraries.lto)), None, Some(rewrites(&libraries.proved))];
        add(line, "IPv4 read and written", bytes, batches);
    }
    for (why, packets) in &refused_packets() {
        add(line, "IPv4 view refused", why, batches!(libraries, refused_views(ipv4_view, packets)));
        add(line, "IPv4 read refused", why, batches!(libraries, refused_reads(ipv4_read, packets)));
    }
    for options_len in [0, 40] {
        let bytes = (20 + options_len).to_string();
        let fields = fields_with_options(&mut Random::new(4), options_len);
        add(line, "header checksum, of fields", &bytes, batches!(libraries, header_checksums(ipv4_header_checksum, fields)));
        let mut batches = batches!(libraries, header_checksums(ipv4_header_checksum, fields));
        for (column, ready) in libraries.ready.iter().enumerate() {
            batches[column] = Some(ready_header_checksums(*ready, fields));
        }
        add(line, "header checksum, the crate's header is there", &bytes, batches);
        let mut random = Random::new(10);
        let headers: Vec<Ipv4Fields> = (0..1024).map(|_| fields_with_options(&mut random, options_len)).collect();
        add(line, "time to live and checksum", &bytes, batches!(libraries, hops(ipv4_set_time_to_live, &headers)));
    }
    let mut random = Random::new(11);
    let headers: Vec<Ipv4Fields> = (0..1024)
        .map(|_| {
            let options_len = 4 * random.below(11) as u8;
            fields_with_options(&mut random, options_len)
        })
        .collect();
    add(line, "header checksum, of fields", "mixed", batches!(libraries, mixed_checksums(ipv4_header_checksum, &headers)));
}

// Packets of one length of header, and of all: with 64 bytes after the header, and with none.
fn all_packets() -> [(&'static str, Vec<Vec<u8>>); 5] {
    let mut random = Random::new(8);
    let mut packets = |options: &[usize], payload_len| {
        let mut of = |len: &usize| packets::ipv4(&mut random, *len, payload_len);
        (0..64).map(|number| of(&options[number % options.len()])).collect()
    };
    // Each length about as often as any other, in no order.
    let mixed = [0, 12, 36, 4, 40, 24, 8, 0, 32, 16, 28, 20, 40];
    [
        ("20", packets(&[0], 64)),
        ("60", packets(&[40], 64)),
        ("mixed", packets(&mixed, 64)),
        ("20, no more", packets(&[0], 0)),
        ("mixed, no more", packets(&mixed, 0)),
    ]
}

// Packets that are refused, each for one reason.
fn refused_packets() -> [(&'static str, Vec<Vec<u8>>); 4] {
    let mut random = Random::new(13);
    let mut packets = |spoil: fn(&mut Vec<u8>)| {
        let mut packet = || {
            let mut bytes = packets::ipv4(&mut random, 20, 24);
            spoil(&mut bytes);
            bytes
        };
        (0..64).map(|_| packet()).collect()
    };
    [
        ("below 20 bytes", packets(|bytes| bytes.truncate(19))),
        ("version", packets(|bytes| bytes[0] = 0x65)),
        ("IHL below 5", packets(|bytes| bytes[0] = 0x44)),
        ("shorter than IHL", packets(|bytes| bytes.truncate(36))),
    ]
}

fn views<'a>(call: ViewIpv4, packets: &'a [Vec<u8>]) -> Box<Batch<'a>> {
    Box::new(move |calls| {
        let mut all: u64 = 0;
        for number in 0..calls as usize {
            let packet = &packets[number % 64];
            let answer = unsafe { call(packet.as_ptr(), packet.len()) };
            all += answer.rest.len as u64 + u64::from(answer.view.total_len);
        }
        all
    })
}

fn reads<'a>(call: ReadIpv4, packets: &'a [Vec<u8>]) -> Box<Batch<'a>> {
    Box::new(move |calls| {
        let mut all: u64 = 0;
        for number in 0..calls as usize {
            let packet = &packets[number % 64];
            let answer = unsafe { call(packet.as_ptr(), packet.len()) };
            all += answer.rest.len as u64 + u64::from(answer.fields.total_len);
        }
        all
    })
}

fn refused_views<'a>(call: ViewIpv4, packets: &'a [Vec<u8>]) -> Box<Batch<'a>> {
    Box::new(move |calls| {
        let mut all: u64 = 0;
        for number in 0..calls as usize {
            let packet = &packets[number % 64];
            let answer = unsafe { call(packet.as_ptr(), packet.len()) };
            all += answer.error.required_len as u64 + u64::from(answer.error.kind);
        }
        all
    })
}

fn refused_reads<'a>(call: ReadIpv4, packets: &'a [Vec<u8>]) -> Box<Batch<'a>> {
    Box::new(move |calls| {
        let mut all: u64 = 0;
        for number in 0..calls as usize {
            let packet = &packets[number % 64];
            let answer = unsafe { call(packet.as_ptr(), packet.len()) };
            all += answer.error.required_len as u64 + u64::from(answer.error.kind);
        }
        all
    })
}

// Each header is read, gets another time to live, and is written.
fn rewrites<'a>(read: ReadIpv4, write: WriteIpv4, packets: &'a [Vec<u8>]) -> Box<Batch<'a>> {
    Box::new(move |calls| {
        let mut all: u64 = 0;
        for number in 0..calls as usize {
            let packet = &packets[number % 64];
            let mut answer = unsafe { read(packet.as_ptr(), packet.len()) };
            answer.fields.time_to_live = number as u8;
            let written = unsafe { write(&answer.fields) };
            all += u64::from(written.bytes[8]) + u64::from(written.len);
        }
        all
    })
}

// Header checksums of the same fields, but for the identification.
fn header_checksums<'a>(call: HeaderChecksum, fields: Ipv4Fields) -> Box<Batch<'a>> {
    Box::new(move |calls| {
        let mut fields = fields;
        let mut all: u64 = 0;
        for number in 0..calls {
            fields.identification = number as u16;
            all += u64::from(unsafe { call(&fields) }.checksum);
        }
        all
    })
}

// Header checksums of one header that the Rust crate has made of the fields before.
fn ready_header_checksums<'a>(ready: Ready, fields: Ipv4Fields) -> Box<Batch<'a>> {
    let header = unsafe { (ready.ipv4_header)(&fields) };
    Box::new(move |calls| {
        let mut all: u64 = 0;
        for _ in 0..calls {
            all += u64::from(unsafe { (ready.ipv4_header_checksum_of)(header) });
        }
        all
    })
}

// Header checksums of one header after the other.
fn mixed_checksums<'a>(call: HeaderChecksum, headers: &'a [Ipv4Fields]) -> Box<Batch<'a>> {
    Box::new(move |calls| {
        let mut all: u64 = 0;
        for number in 0..calls as usize {
            all += u64::from(unsafe { call(&headers[number % 1024]) }.checksum);
        }
        all
    })
}

// One header after the other gets another time to live, with its checksum computed anew or updated.
fn hops<'a>(call: SetTimeToLive, headers: &'a [Ipv4Fields]) -> Box<Batch<'a>> {
    Box::new(move |calls| {
        let mut headers = headers.to_vec();
        let count = headers.len();
        for number in 0..calls as usize {
            unsafe { call(&mut headers[number & (count - 1)], number as u8) };
        }
        headers.iter().map(|fields| u64::from(fields.header_checksum)).sum()
    })
}
