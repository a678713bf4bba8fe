//! Packets: for the comparison of any kind, for the times well-formed.

use crate::random::Random;

// The numbers of the extension headers that can be skipped.
const SKIPPABLE: [u8; 8] = [0, 43, 44, 51, 60, 135, 139, 140];

/// The number of an extension header, mostly.
pub fn some_number(random: &mut Random) -> u8 {
    match random.below(4) {
        0 => random.next() as u8,
        _ => SKIPPABLE[random.below(8) as usize],
    }
}

/// A slice that begins with a header of either version, with extension headers, or with anything; some end too early.
pub fn some_slice(random: &mut Random) -> Vec<u8> {
    let mut bytes = match random.below(4) {
        0 => {
            let words = random_below(random, 11);
            ipv4(random, 4 * words, 0)
        }
        1 => ipv6(random),
        2 => {
            let count = random_below(random, 6);
            chain(random, count).1
        }
        _ => vec![],
    };
    let more = random_below(random, 80);
    let start = bytes.len();
    bytes.resize(start + more, 0);
    random.fill(&mut bytes[start..]);
    if random.below(3) == 0 {
        bytes.truncate(random_below(random, bytes.len() + 1));
    }
    if !bytes.is_empty() && random.below(4) == 0 {
        let place = random_below(random, bytes.len().min(44));
        bytes[place] = random.next() as u8;
    }
    bytes
}

/// A packet of either version, with options or extension headers, or a slice of any kind.
pub fn some_packet(random: &mut Random) -> Vec<u8> {
    match random.below(3) {
        0 => {
            let options_len = 4 * random_below(random, 11);
            ipv4(random, options_len, 8)
        }
        1 => {
            let count = random_below(random, 6);
            ipv6_with_chain(random, count)
        }
        _ => some_slice(random),
    }
}

/// An IPv4 packet with so many bytes of options and of payload.
pub fn ipv4(random: &mut Random, options_len: usize, payload_len: usize) -> Vec<u8> {
    let mut bytes = vec![0; 20 + options_len + payload_len];
    random.fill(&mut bytes);
    bytes[0] = 0x45 + (options_len / 4) as u8;
    bytes
}

/// An IPv6 header.
pub fn ipv6(random: &mut Random) -> Vec<u8> {
    let mut bytes = vec![0; 40];
    random.fill(&mut bytes);
    bytes[0] = 0x60 + bytes[0] % 16;
    bytes
}

/// An IPv6 packet with so many extension headers and 20 bytes of UDP after them.
pub fn ipv6_with_chain(random: &mut Random, count: usize) -> Vec<u8> {
    let mut bytes = ipv6(random);
    let (first, rest) = chain(random, count);
    bytes[6] = first;
    bytes.extend(rest);
    bytes
}

/// The number of the first of so many extension headers, and the headers with 20 bytes of UDP after them.
pub fn chain(random: &mut Random, count: usize) -> (u8, Vec<u8>) {
    let mut numbers: Vec<u8> = (0..count).map(|_| SKIPPABLE[random_below(random, 8)]).collect();
    numbers.push(17);
    let mut bytes = vec![];
    for pair in numbers.windows(2) {
        let second_byte = random.below(3) as u8;
        let len = match pair[0] {
            44 => 8,
            51 => 4 * (usize::from(second_byte) + 2),
            _ => 8 * (usize::from(second_byte) + 1),
        };
        let start = bytes.len();
        bytes.resize(start + len, 0);
        random.fill(&mut bytes[start..]);
        [bytes[start], bytes[start + 1]] = [pair[1], second_byte];
    }
    let start = bytes.len();
    bytes.resize(start + 20, 0);
    random.fill(&mut bytes[start..]);
    (numbers[0], bytes)
}

fn random_below(random: &mut Random, bound: usize) -> usize {
    random.below(bound as u64) as usize
}
