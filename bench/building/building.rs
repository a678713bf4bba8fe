//! The loop of `building.rt.txt` in Rust, written by hand: the lengths are tested once, and each header is written at a place that the
//! compiler knows as far as it can. Sums are of words of four bytes, which the compiler adds several at a time.

use std::slice;

fn sum_of(bytes: &[u8]) -> u64 {
    let mut chunks = bytes.chunks_exact(4);
    let mut sum: u64 = chunks.by_ref().map(|c| u64::from(u32::from_ne_bytes([c[0], c[1], c[2], c[3]]))).sum();
    match *chunks.remainder() {
        [a] => sum += u64::from(u16::from_ne_bytes([a, 0])),
        [a, b] => sum += u64::from(u16::from_ne_bytes([a, b])),
        [a, b, c] => sum += u64::from(u32::from_ne_bytes([a, b, c, 0])),
        _ => {}
    }
    sum
}

fn complement(mut sum: u64) -> [u8; 2] {
    sum = (sum & 0xffff_ffff) + (sum >> 32);
    sum = (sum & 0xffff) + (sum >> 16 & 0xffff) + (sum >> 32);
    sum = (sum & 0xffff) + (sum >> 16);
    sum = (sum & 0xffff) + (sum >> 16);
    (!(sum as u16)).to_ne_bytes()
}

fn build(plan: &[u8], out: &mut [u8]) -> Option<usize> {
    let (head, payload) = plan.split_first_chunk::<48>()?;
    let (v6, tag, tcp) = (head[0] & 1 != 0, head[0] & 2 != 0, head[0] & 4 != 0);
    let upper_len = if tcp { 20 } else { 8 } + payload.len();
    if upper_len > if v6 { 65535 } else { 65515 } {
        return None;
    }
    let before = if tag { 18 } else { 14 } + if v6 { 40 } else { 20 };
    let out = out.get_mut(..before + upper_len)?;
    out[..14].copy_from_slice(&[2, 0, 0, 0, 1, head[2], 2, 0, 0, 0, 0, head[1], 0, 0]);
    let ether_type: [u8; 2] = if v6 { [0x86, 0xdd] } else { [8, 0] };
    let at = if tag {
        let id = u16::from_be_bytes([head[4], head[5]]);
        let id = if id < 4096 { id } else { 0 };
        out[12..14].copy_from_slice(&[0x81, 0]);
        out[14..16].copy_from_slice(&id.to_be_bytes());
        out[16..18].copy_from_slice(&ether_type);
        18
    } else {
        out[12..14].copy_from_slice(&ether_type);
        14
    };
    let (front, upper) = out.split_at_mut(before);
    let protocol = if tcp { 6 } else { 17 };
    let ip = &mut front[at..];
    let mut sum = if v6 {
        let len = (upper_len as u16).to_be_bytes();
        ip[..8].copy_from_slice(&[0x60, 0, 0, 0, len[0], len[1], protocol, 64]);
        ip[8..40].copy_from_slice(&head[8..40]);
        sum_of(&ip[8..40])
    } else {
        let len = ((20 + upper_len) as u16).to_be_bytes();
        ip[..12].copy_from_slice(&[0x45, 0, len[0], len[1], 0, 0, 0x40, 0, 64, protocol, 0, 0]);
        ip[12..16].copy_from_slice(&head[8..12]);
        ip[16..20].copy_from_slice(&head[24..28]);
        let checksum = complement(sum_of(&ip[..20]));
        ip[10..12].copy_from_slice(&checksum);
        sum_of(&ip[12..20])
    };
    sum += u64::from(u16::from_ne_bytes([0, protocol])) + u64::from((upper_len as u16).to_be());
    upper[..4].copy_from_slice(&head[40..44]);
    if tcp {
        upper[4..8].copy_from_slice(&head[44..48]);
        upper[8..20].copy_from_slice(&[0, 0, 0, 7, 0x50, 0x10, 0xfa, 0xf0, 0, 0, 0, 0]);
        upper[20..].copy_from_slice(payload);
        let checksum = complement(sum + sum_of(upper));
        upper[16..18].copy_from_slice(&checksum);
    } else {
        let len = (upper_len as u16).to_be_bytes();
        upper[4..8].copy_from_slice(&[len[0], len[1], 0, 0]);
        upper[8..].copy_from_slice(payload);
        let checksum = match complement(sum + sum_of(upper)) {
            [0, 0] => [255, 255],
            other => other,
        };
        upper[6..8].copy_from_slice(&checksum);
    }
    Some(before + upper_len)
}

fn some_bytes(out: &[u8], len: usize) -> u64 {
    if out.len() < 80 {
        return 0;
    }
    [13, 24, 25, 29, 40, 51, 61, 71]
        .iter()
        .fold(len as u64, |all, &at| all.wrapping_mul(31).wrapping_add(u64::from(out[at as usize])))
}

#[no_mangle]
pub unsafe extern "C" fn rust_packets(at: *const &[u8], count: usize, out: *mut u8, len: usize) -> u64 {
    let plans = slice::from_raw_parts(at, count);
    let out = slice::from_raw_parts_mut(out, len);
    let mut all: u64 = 0;
    for plan in plans {
        let len = build(plan, out).unwrap_or(1);
        all = all.wrapping_mul(3).wrapping_add(some_bytes(out, len));
    }
    all
}
