//! `packets COUNT RANDOM FLOWS`: writes two captures of so many packets, always the same: link type 101, both versions, UDP, TCP
//! and ICMP of all lengths, extension headers, fragments, and one packet in fifty with a changed byte. The packets of the file
//! FLOWS have the addresses and ports of 200 flows for each version, those of RANDOM new ones in each packet. In all else but the
//! checksums the two captures are the same.

use std::fs::File;
use std::io::{self, BufWriter, Write};

struct Random(u64);

impl Random {
    fn next(&mut self) -> u64 {
        self.0 ^= self.0 << 13;
        self.0 ^= self.0 >> 7;
        self.0 ^= self.0 << 17;
        self.0
    }

    fn below(&mut self, bound: u64) -> u64 {
        (self.next() >> 11) % bound
    }
}

/// The addresses and ports of one of so many flows.
fn ends(random: &mut Random, flows: u64, address_len: usize) -> (Vec<u8>, [u8; 4]) {
    let flow = 1 + random.below(flows);
    let mut random = Random(flow.wrapping_mul(0x9e37_79b9_7f4a_7c15));
    let mut addresses: Vec<u8> = (0..2 * address_len).map(|_| random.next() as u8).collect();
    if address_len == 16 {
        for address in addresses.chunks_mut(16) {
            address[..4].copy_from_slice(&[0x20, 0x01, 0x0d, 0xb8]);
        }
    }
    (addresses, [0; 4].map(|_| random.next() as u8))
}

fn complement(pieces: &[&[u8]]) -> [u8; 2] {
    let mut sum = 0u64;
    for piece in pieces {
        for word in piece.chunks(2) {
            sum += u64::from(word[0]) << 8 | word.get(1).copied().map_or(0, u64::from);
        }
    }
    while sum > 0xffff {
        sum = (sum & 0xffff) + (sum >> 16);
    }
    (!(sum as u16)).to_be_bytes()
}

/// The payload of a packet, its checksum over the addresses, and its protocol number.
fn segment(random: &mut Random, addresses: &[u8], ports: [u8; 4]) -> (Vec<u8>, u8) {
    let is_ipv4 = addresses.len() == 8;
    let data = match random.below(4) {
        0 => random.below(64),
        1 => 64 + random.below(512),
        _ => 1000 + random.below(440),
    };
    let (number, header_len, place) = match random.below(10) {
        0..=5 => (6, 20, 16),
        6..=8 => (17, 8, 6),
        _ => (if is_ipv4 { 1 } else { 58 }, 8, 2),
    };
    let mut bytes: Vec<u8> = (0..header_len + data).map(|_| random.next() as u8).collect();
    let len = bytes.len() as u16;
    if number == 6 || number == 17 {
        bytes[..4].copy_from_slice(&ports);
    }
    match number {
        6 => bytes[12] = 0x50,
        17 => bytes[4..6].copy_from_slice(&len.to_be_bytes()),
        _ => (bytes[0], bytes[1]) = (if is_ipv4 { 8 } else { 128 }, 0),
    }
    bytes[place..place + 2].fill(0);
    let [h, l] = len.to_be_bytes();
    let before: &[u8] = if is_ipv4 { &[0, number, h, l] } else { &[0, 0, h, l, 0, 0, 0, number] };
    let sum = if number == 1 { complement(&[&bytes]) } else { complement(&[addresses, before, &bytes]) };
    let sum = if number == 17 && sum == [0, 0] { [0xff, 0xff] } else { sum };
    bytes[place..place + 2].copy_from_slice(&sum);
    (bytes, number)
}

fn ipv4(random: &mut Random, flows: u64) -> Vec<u8> {
    let (addresses, ports) = ends(random, flows, 4);
    let (payload, number) = segment(random, &addresses, ports);
    let options = if random.below(20) == 0 { 4 * random.below(11) as usize } else { 0 };
    let [h, l] = ((20 + options + payload.len()) as u16).to_be_bytes();
    let fragment = if random.below(50) == 0 { 0x2000 | random.below(100) as u16 } else { 0x4000 };
    let [f, o] = fragment.to_be_bytes();
    let mut header = vec![0x45 + (options / 4) as u8, 0, h, l, random.next() as u8, random.next() as u8, f, o];
    header.extend([1 + random.below(255) as u8, number, 0, 0]);
    header.extend(&addresses);
    header.resize(20 + options, 1);
    let sum = complement(&[&header]);
    header[10..12].copy_from_slice(&sum);
    header.extend(payload);
    header
}

fn ipv6(random: &mut Random, flows: u64) -> Vec<u8> {
    let (addresses, ports) = ends(random, flows, 16);
    let (payload, number) = segment(random, &addresses, ports);
    let mut chain = Vec::new();
    let mut first = number;
    match random.below(20) {
        0 => {
            first = 0;
            chain.extend([60, 0, 1, 4, 0, 0, 0, 0, number, 1, 1, 12, 0, 0, 0, 0, 0, 0, 0, 0, 0, 0, 0, 0]);
        }
        1 => {
            first = 44;
            let [f, o] = (8 * random.below(100) as u16 + 1).to_be_bytes();
            chain.extend([number, 0, f, o, 1, 2, 3, 4]);
        }
        _ => {}
    }
    let [h, l] = ((chain.len() + payload.len()) as u16).to_be_bytes();
    let mut header = vec![0x60, 0, random.next() as u8, random.next() as u8, h, l, first, 64];
    header.extend(&addresses);
    header.extend(chain);
    header.extend(payload);
    header
}

fn write_capture(file: &str, count: u64, flows: u64) -> io::Result<()> {
    let mut random = Random(0x1234_5678_9abc_def1);
    let mut output = BufWriter::new(File::create(file)?);
    output.write_all(&[0xd4, 0xc3, 0xb2, 0xa1, 2, 0, 4, 0, 0, 0, 0, 0, 0, 0, 0, 0, 0, 0, 4, 0, 101, 0, 0, 0])?;
    for number in 0..count {
        let mut packet = if random.below(3) == 0 { ipv6(&mut random, flows) } else { ipv4(&mut random, flows) };
        if random.below(50) == 0 {
            let at = random.below(packet.len() as u64) as usize;
            packet[at] ^= 1 << random.below(8);
        }
        let len = (packet.len() as u32).to_le_bytes();
        output.write_all(&(1_700_000_000 + (number / 1000) as u32).to_le_bytes())?;
        output.write_all(&((number % 1000 * 1000) as u32).to_le_bytes())?;
        output.write_all(&len)?;
        output.write_all(&len)?;
        output.write_all(&packet)?;
    }
    output.flush()
}

fn main() -> io::Result<()> {
    let words: Vec<String> = std::env::args().collect();
    let [_, count, random, flows] = words.as_slice() else { return Err(io::Error::other("usage: packets COUNT RANDOM FLOWS")) };
    let count = count.parse().map_err(io::Error::other)?;
    // So many that hardly any comes twice.
    write_capture(random, count, 1 << 53)?;
    write_capture(flows, count, 200)
}
