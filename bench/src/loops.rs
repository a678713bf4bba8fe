//! Loops over packets, as a program in Rust has them; `../loops/src/lib.rt` has the same in Rattle. The Rust crate updates no
//! checksum and has no limit on extension headers: its checksum is computed anew, and the limit is counted over single skips.

use crate::{c, walk_up_to};
use etherparse::{IpNumber, Ipv4Header, Ipv4HeaderSlice, Ipv6Header, Ipv6HeaderSlice};
use std::slice;

// A list of pointers and lengths is laid out as a list of slices.
#[inline(always)]
unsafe fn packets_of<'a>(at: *const c::Slice, count: usize) -> &'a [&'a [u8]] {
    slice::from_raw_parts(at.cast(), count)
}

/// Of each packet a view of its IPv4 header, and two getters.
///
/// # Safety
///
/// `at` points to `count` slices that are there.
#[no_mangle]
pub unsafe extern "C" fn upstream_loop_ipv4_views(at: *const c::Slice, count: usize) -> u64 {
    let mut all: u64 = 0;
    for packet in packets_of(at, count) {
        if let Ok(view) = Ipv4HeaderSlice::from_slice(packet) {
            all = all.wrapping_add(u64::from(view.total_len()) + u64::from(view.ttl()));
        }
    }
    all
}

/// Of each packet its IPv4 header, and five of its fields.
///
/// # Safety
///
/// `at` points to `count` slices that are there.
#[no_mangle]
pub unsafe extern "C" fn upstream_loop_ipv4_reads(at: *const c::Slice, count: usize) -> u64 {
    let mut all: u64 = 0;
    for packet in packets_of(at, count) {
        if let Ok((header, rest)) = Ipv4Header::from_slice(packet) {
            let numbers = u64::from(header.total_len)
                + u64::from(header.identification)
                + u64::from(header.time_to_live)
                + u64::from(header.source[3])
                + u64::from(header.options.len_u8());
            all = all.wrapping_add(numbers).wrapping_add(rest.len() as u64);
        }
    }
    all
}

/// Of each packet its IPv4 header, and the checksum that it should have.
///
/// # Safety
///
/// `at` points to `count` slices that are there.
#[no_mangle]
pub unsafe extern "C" fn upstream_loop_ipv4_checksums(at: *const c::Slice, count: usize) -> u64 {
    let mut all: u64 = 0;
    for packet in packets_of(at, count) {
        if let Ok((header, _)) = Ipv4Header::from_slice(packet) {
            all = all.wrapping_add(u64::from(header.calc_header_checksum()));
        }
    }
    all
}

/// Each IPv4 header with one hop less and its checksum computed anew, written over `room`.
///
/// # Safety
///
/// `at` points to `count` slices that are there.
#[no_mangle]
pub unsafe extern "C" fn upstream_loop_ipv4_forwards(at: *const c::Slice, count: usize, room: &mut [u8; 60]) -> u64 {
    forwarded(packets_of(at, count), room)
}

/// The same: there is no update.
///
/// # Safety
///
/// `at` points to `count` slices that are there.
#[no_mangle]
pub unsafe extern "C" fn upstream_loop_ipv4_updates(at: *const c::Slice, count: usize, room: &mut [u8; 60]) -> u64 {
    forwarded(packets_of(at, count), room)
}

#[inline(always)]
fn forwarded(packets: &[&[u8]], room: &mut [u8; 60]) -> u64 {
    let mut all: u64 = 0;
    for packet in packets {
        if let Ok((mut header, _)) = Ipv4Header::from_slice(packet) {
            if header.time_to_live > 1 {
                header.time_to_live -= 1;
                header.header_checksum = header.calc_header_checksum();
                all = all.wrapping_add(written(&header.to_bytes(), room));
            }
        }
    }
    all
}

// The bytes of a header, written at the front of `room`.
#[inline(always)]
fn written(bytes: &[u8], room: &mut [u8; 60]) -> u64 {
    if bytes.len() > 60 {
        return 0;
    }
    room[..bytes.len()].copy_from_slice(bytes);
    u64::from(room[8]) + u64::from(room[10])
}

/// Of each packet a view of its IPv6 header, and two getters.
///
/// # Safety
///
/// `at` points to `count` slices that are there.
#[no_mangle]
pub unsafe extern "C" fn upstream_loop_ipv6_views(at: *const c::Slice, count: usize) -> u64 {
    let mut all: u64 = 0;
    for packet in packets_of(at, count) {
        if let Ok(view) = Ipv6HeaderSlice::from_slice(packet) {
            all = all.wrapping_add(u64::from(view.payload_length()) + u64::from(view.hop_limit()));
        }
    }
    all
}

/// Of each packet its IPv6 header, and four of its fields.
///
/// # Safety
///
/// `at` points to `count` slices that are there.
#[no_mangle]
pub unsafe extern "C" fn upstream_loop_ipv6_reads(at: *const c::Slice, count: usize) -> u64 {
    let mut all: u64 = 0;
    for packet in packets_of(at, count) {
        if let Ok((header, rest)) = Ipv6Header::from_slice(packet) {
            let numbers = u64::from(header.flow_label.value())
                + u64::from(header.payload_length)
                + u64::from(header.hop_limit)
                + u64::from(header.destination[15]);
            all = all.wrapping_add(numbers).wrapping_add(rest.len() as u64);
        }
    }
    all
}

/// Of each packet what its IPv6 header and extension headers lead to.
///
/// # Safety
///
/// `at` points to `count` slices that are there.
#[no_mangle]
pub unsafe extern "C" fn upstream_loop_ipv6_walks(at: *const c::Slice, count: usize) -> u64 {
    let mut all: u64 = 0;
    for packet in packets_of(at, count) {
        if let Ok((header, rest)) = Ipv6Header::from_slice(packet) {
            let walk = Ipv6Header::skip_all_header_extensions_in_slice(rest, header.next_header);
            if let Ok((number, upper)) = walk {
                all = all.wrapping_add(u64::from(number.0)).wrapping_add(upper.len() as u64);
            }
        }
    }
    all
}

/// The same past at most so many headers.
///
/// # Safety
///
/// `at` points to `count` slices that are there.
#[no_mangle]
pub unsafe extern "C" fn upstream_loop_ipv6_limited_walks(at: *const c::Slice, count: usize, limit: usize) -> u64 {
    let mut all: u64 = 0;
    for packet in packets_of(at, count) {
        if let Ok((header, rest)) = Ipv6Header::from_slice(packet) {
            if let Ok((number, upper)) = walk_up_to(rest, header.next_header, limit) {
                all = all.wrapping_add(u64::from(number.0)).wrapping_add(upper.len() as u64);
            }
        }
    }
    all
}

/// One skip: how many bytes are left and the number of what follows, or the length that is required with the highest bit.
///
/// # Safety
///
/// `at` points to `len` bytes, or `len` is 0.
#[no_mangle]
pub unsafe extern "C" fn upstream_skip_one(at: *const u8, len: usize, next_header: u8) -> u64 {
    match Ipv6Header::skip_header_extension_in_slice(crate::slice_of(at, len), IpNumber(next_header)) {
        Ok((number, rest)) => (rest.len() as u64).wrapping_mul(256).wrapping_add(u64::from(number.0)),
        Err(e) => (e.required_len as u64) | (1 << 63),
    }
}
