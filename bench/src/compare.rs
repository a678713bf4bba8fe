//! All libraries have to give the same answers before they are timed. Sums are compared by what they complement to.

use crate::library::*;
use crate::packets;
use crate::random::Random;

/// How many answers were compared.
///
/// # Panics
///
/// Where two answers differ.
pub fn compare(all: &Libraries) -> usize {
    let of_linux = all.linux.as_ref().map_or(0, |linux| sums_of_linux(&all.upstream, linux));
    let of_lto = of_both(&all.upstream, &all.lto);
    let of_own = sums_of_pieces(&all.upstream, &all.own) + updates(&all.upstream, &all.own);
    of_linux + of_lto + of_own + of_both(&all.upstream, &all.proved)
}

fn of_both(upstream: &Library, other: &Library) -> usize {
    sums(upstream, other)
        + headers(upstream, other)
        + slices(upstream, other)
        + ipv6_headers(upstream, other)
        + lengths(upstream, other)
        + loops(upstream, other)
}

fn sums(upstream: &Library, other: &Library) -> usize {
    let mut random = Random::new(1);
    let mut room = vec![0; 300_016];
    random.fill(&mut room);
    let mut count = 0;
    for len in 0..=200 {
        for offset in 0..16 {
            count += sums_of(upstream, other, &room[offset..offset + len], random.next());
        }
    }
    for _ in 0..3_000 {
        let len = random.below(300_001) as usize;
        let offset = random.below(16) as usize;
        count += sum_at(upstream, other, room[offset..].as_ptr(), len, random.next());
    }
    // Random lengths at random places: most as short as packets are.
    for _ in 0..2_000_000 {
        let most = [64, 300, 1_600][random.below(3) as usize];
        let len = random.below(most + 1) as usize;
        let offset = random.below(4_096) as usize;
        count += sum_at(upstream, other, room[offset..].as_ptr(), len, random.next());
    }
    // Ones, by which every carry is made.
    room.fill(255);
    for len in (0..=200).chain([576, 1_500, 9_000, 65_535, 70_000]) {
        count += sums_of(upstream, other, &room[..len], random.next());
    }
    count + sum_at(upstream, other, std::ptr::null(), 0, random.next())
}

// From several starts.
fn sums_of(upstream: &Library, other: &Library, bytes: &[u8], start: u64) -> usize {
    let starts = [0, 1, start, u64::MAX - 1, u64::MAX];
    starts.iter().map(|start| sum_at(upstream, other, bytes.as_ptr(), bytes.len(), *start)).sum()
}

// In one call and in two.
fn sum_at(upstream: &Library, other: &Library, at: *const u8, len: usize, start: u64) -> usize {
    let wide = |library: &Library| unsafe {
        let sum = (library.u64_16bit_word_add_slice)(start, at, len);
        let whole = (library.u64_16bit_word_checksum)(start, at, len);
        (whole, (library.u64_16bit_word_ones_complement)(sum))
    };
    assert_eq!(wide(upstream), wide(other), "64 bits, {len} bytes from {start}");
    let start = start as u32;
    let narrow = |library: &Library| unsafe {
        let sum = (library.u32_16bit_word_add_slice)(start, at, len);
        let whole = (library.u32_16bit_word_checksum)(start, at, len);
        (whole, (library.u32_16bit_word_ones_complement)(sum))
    };
    assert_eq!(narrow(upstream), narrow(other), "32 bits, {len} bytes from {start}");
    4
}

// Linux reads up to seven bytes after a slice, so there are more.
fn sums_of_linux(upstream: &Library, linux: &Linux) -> usize {
    let mut random = Random::new(14);
    let mut room = vec![0; 4_096];
    random.fill(&mut room);
    let count = 100_000;
    for _ in 0..count {
        let bytes = &room[random.below(1_000) as usize..][..random.below(1_600) as usize];
        let (at, len, start) = (bytes.as_ptr(), bytes.len(), random.next() as u32);
        let (expected, whole, cut) = unsafe {
            let sum = (linux.add_slice)(start, at, len);
            (
                (upstream.u32_16bit_word_checksum)(start, at, len),
                (linux.checksum)(start, at, len),
                (upstream.u32_16bit_word_ones_complement)(sum),
            )
        };
        assert_eq!((expected, expected), (whole, cut), "Linux, {len} bytes from {start}");
    }
    2 * count
}

// The Rust crate has no such call: it adds one piece after the other.
fn sums_of_pieces(upstream: &Library, own: &Own) -> usize {
    let mut random = Random::new(5);
    let mut room = [0; 400];
    random.fill(&mut room);
    let count = 10_000;
    for _ in 0..count {
        let (mut pieces, mut wide, mut narrow) = (vec![], 0, 0);
        for _ in 0..random.below(6) {
            let (at, len) = some_piece(&mut random, &room);
            wide = unsafe { (upstream.u64_16bit_word_add_slice)(wide, at, len) };
            narrow = unsafe { (upstream.u32_16bit_word_add_slice)(narrow, at, len) };
            pieces.push(Slice { at, len });
        }
        let (at, len) = (pieces.as_ptr(), pieces.len());
        unsafe {
            let wide_found = (own.u64_16bit_word_add_slices)(at, len);
            let narrow_found = (own.u32_16bit_word_add_slices)(at, len);
            let complement = upstream.u64_16bit_word_ones_complement;
            assert_eq!(complement(wide), complement(wide_found), "64 bits, {len} pieces");
            let complement = upstream.u32_16bit_word_ones_complement;
            assert_eq!(complement(narrow), complement(narrow_found), "32 bits, {len} pieces");
        }
    }
    2 * count
}

// Bytes of the room, or null and none.
fn some_piece(random: &mut Random, room: &[u8; 400]) -> (*const u8, usize) {
    if random.below(8) == 0 {
        return (std::ptr::null(), 0);
    }
    let offset = random.below(200) as usize;
    let bytes = &room[offset..][..random.below(200) as usize];
    (bytes.as_ptr(), bytes.len())
}

// The Rust crate has no such call: of a right checksum, the updated one is the one that it computes anew. A wrong one becomes
// what equation 3 of RFC 1624 says.
fn updates(upstream: &Library, own: &Own) -> usize {
    let mut random = Random::new(15);
    let count = 500_000;
    for _ in 0..count {
        let mut packet = [0; 64];
        random.fill(&mut packet);
        let len = 20 + 2 * random.below(23) as usize;
        let right = |bytes: &[u8]| unsafe { (upstream.u64_16bit_word_checksum)(0, bytes.as_ptr(), bytes.len()) }.swap_bytes();
        let (before, wrong) = (right(&packet[..len]), random.next() as u16);

        let place = 2 * random.below((len as u64 - 2) / 2) as usize;
        let (old, new) = changed::<4>(&mut random, &mut packet[place..]);
        let found = unsafe { (own.update_4bytes)(before, &old, &new) };
        assert_eq!(right(&packet[..len]), found, "four bytes at {place} of {len}");
        let found = unsafe { (own.update_4bytes)(wrong, &old, &new) };
        assert_eq!(by_equation_three(wrong, &old, &new), found, "four bytes, {wrong}");

        let before = right(&packet[..len]);
        let place = 2 * random.below((len as u64 - 14) / 2) as usize;
        let (old, new) = changed::<16>(&mut random, &mut packet[place..]);
        let found = unsafe { (own.update_16bytes)(before, &old, &new) };
        assert_eq!(right(&packet[..len]), found, "sixteen bytes at {place} of {len}");
        let found = unsafe { (own.update_16bytes)(wrong, &old, &new) };
        assert_eq!(by_equation_three(wrong, &old, &new), found, "sixteen bytes, {wrong}");
    }
    4 * count
}

// The first bytes, before and after others are written over them.
fn changed<const N: usize>(random: &mut Random, bytes: &mut [u8]) -> ([u8; N], [u8; N]) {
    let old = bytes[..N].try_into().expect("as many bytes");
    random.fill(&mut bytes[..N]);
    (old, bytes[..N].try_into().expect("as many bytes"))
}

// The complement of the sum of three complements and words, each word by itself, folded at the end.
fn by_equation_three(checksum: u16, old: &[u8], new: &[u8]) -> u16 {
    let word = |pair: &[u8]| u64::from(pair[0]) * 256 + u64::from(pair[1]);
    let mut sum = u64::from(!checksum);
    for pair in old.chunks(2) {
        sum += 0xffff - word(pair);
    }
    for pair in new.chunks(2) {
        sum += word(pair);
    }
    while sum > 0xffff {
        sum = sum % 0x1_0000 + sum / 0x1_0000;
    }
    !(sum as u16)
}

fn headers(upstream: &Library, other: &Library) -> usize {
    let mut random = Random::new(2);
    let count = 100_000;
    for _ in 0..count {
        let fields = some_fields(&mut random);
        let checksum = |library: &Library| unsafe { (library.ipv4_header_checksum)(&fields) };
        let (expected, found) = (checksum(upstream), checksum(other));
        assert_eq!(expected, found, "header checksum of {fields:?}");
        let write = |library: &Library| unsafe { (library.ipv4_write)(&fields) };
        assert_eq!(write(upstream), write(other), "the bytes of {fields:?}");
        // Of a right checksum, the updated one is the one that is computed anew, but for the two forms of zero.
        let time_to_live = random.next() as u8;
        let hop = |library: &Library| {
            let mut fields = Ipv4Fields { header_checksum: found.checksum, ..fields };
            let is_there = unsafe { (library.ipv4_set_time_to_live)(&mut fields, time_to_live) };
            (is_there, fields)
        };
        assert_eq!(hop(upstream), hop(other), "{fields:?} with another time to live");
    }
    3 * count
}

// Slices that begin with a header, are random, or end too early.
fn slices(upstream: &Library, other: &Library) -> usize {
    let mut random = Random::new(6);
    let count = 300_000;
    for _ in 0..count {
        let bytes = packets::some_slice(&mut random);
        let (at, len) = (if bytes.is_empty() { std::ptr::null() } else { bytes.as_ptr() }, bytes.len());
        let number = packets::some_number(&mut random);
        let limit = random.below(6) as usize;
        macro_rules! same {
            ($($call:ident($($argument:expr),*),)*) => {
                $(unsafe {
                    let answers = ((upstream.$call)($($argument),*), (other.$call)($($argument),*));
                    assert_eq!(answers.0, answers.1, "{} of {number}, {limit}, {bytes:?}", stringify!($call));
                })*
            };
        }
        same! {
            ipv4_view(at, len),
            ipv4_read(at, len),
            ipv6_view(at, len),
            ipv6_read(at, len),
            ipv6_walk(at, len, number),
            ipv6_walk_up_to(at, len, number, limit),
            skip_one(at, len, number),
        }
    }
    7 * count
}

fn ipv6_headers(upstream: &Library, other: &Library) -> usize {
    let mut random = Random::new(7);
    let count = 100_000;
    for _ in 0..count {
        let mut fields = Ipv6Fields {
            flow_label: (random.next() >> 43) as u32,
            payload_length: random.next() as u16,
            traffic_class: random.next() as u8,
            next_header: random.next() as u8,
            hop_limit: random.next() as u8,
            source: [0; 16],
            destination: [0; 16],
        };
        random.fill(&mut fields.source);
        random.fill(&mut fields.destination);
        let write = |library: &Library| unsafe { (library.ipv6_write)(&fields) };
        assert_eq!(write(upstream), write(other), "{fields:?}");
    }
    count
}

fn lengths(upstream: &Library, other: &Library) -> usize {
    let mut count = 0;
    for options_len in 0..=255 {
        for total_len in (0..=130).chain([1_500, 65_534, 65_535]) {
            let lengths = |library: &Library| unsafe { (library.ipv4_lengths)(total_len, options_len) };
            assert_eq!(lengths(upstream), lengths(other), "{total_len}, {options_len}");
            count += 1;
        }
    }
    count
}

// Loops over packets of any kind.
fn loops(upstream: &Library, other: &Library) -> usize {
    let mut random = Random::new(16);
    let count = 5_000;
    for _ in 0..count {
        let packets: Vec<Vec<u8>> = (0..random.below(20)).map(|_| packets::some_packet(&mut random)).collect();
        let slices: Vec<Slice> = packets.iter().map(|packet| Slice { at: packet.as_ptr(), len: packet.len() }).collect();
        let (at, len, limit) = (slices.as_ptr(), slices.len(), random.below(5) as usize);
        let each = |library: &Library| unsafe {
            let (mut anew, mut updated) = ([0; 60], [0; 60]);
            (
                [
                    (library.loop_ipv4_views)(at, len),
                    (library.loop_ipv4_reads)(at, len),
                    (library.loop_ipv4_checksums)(at, len),
                    (library.loop_ipv4_forwards)(at, len, &mut anew),
                    (library.loop_ipv6_views)(at, len),
                    (library.loop_ipv6_reads)(at, len),
                    (library.loop_ipv6_walks)(at, len),
                    (library.loop_ipv6_limited_walks)(at, len, limit),
                ],
                anew,
                // An update keeps a wrong checksum wrong, so only what has no part in it is the same.
                { (library.loop_ipv4_updates)(at, len, &mut updated); [&updated[..10], &updated[12..]].concat() },
            )
        };
        assert_eq!(each(upstream), each(other), "{packets:?}");
    }
    10 * count
}

// About one in eight has a field that is out of its range.
fn some_fields(random: &mut Random) -> Ipv4Fields {
    let options_len = 4 * random.below(11) as u8;
    let mut fields = fields_with_options(random, options_len);
    match random.below(32) {
        0 => fields.dscp = 64 + random.below(192) as u8,
        1 => fields.ecn = 4 + random.below(252) as u8,
        2 => fields.fragment_offset = 8_192 + random.below(57_344) as u16,
        3 => fields.options_len = random.below(256) as u8,
        _ => {}
    }
    fields
}

/// A header with so many bytes of options, and random fields.
pub fn fields_with_options(random: &mut Random, options_len: u8) -> Ipv4Fields {
    let mut fields = Ipv4Fields {
        dscp: random.below(64) as u8,
        ecn: random.below(4) as u8,
        total_len: random.next() as u16,
        identification: random.next() as u16,
        dont_fragment: random.below(2) == 1,
        more_fragments: random.below(2) == 1,
        fragment_offset: random.below(8_192) as u16,
        time_to_live: random.next() as u8,
        protocol: random.next() as u8,
        header_checksum: random.next() as u16,
        source: [0; 4],
        destination: [0; 4],
        options_len,
        options: [0; 40],
    };
    random.fill(&mut fields.source);
    random.fill(&mut fields.destination);
    random.fill(&mut fields.options);
    fields
}
