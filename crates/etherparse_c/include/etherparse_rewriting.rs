//! The declarations of `etherparse_rewriting.h` for Rust, in the editions 2021 and 2024. Functions
//! have the same names; constants have no prefix, and structs have names in Rust's style, such as
//! `ReachAnswer`. That file says what each call does, and what it requires of a caller.

#![allow(dead_code)]

pub const OK: u32 = 0;
pub const EMPTY: u32 = 1;
pub const UNEXPECTED_VERSION: u32 = 2;
pub const IPV4_HEADER: u32 = 3;
pub const IPV6_HEADER: u32 = 4;
pub const PACKET: u32 = 5;
pub const EXTENSIONS: u32 = 6;
pub const OTHER_VERSION: u32 = 7;
pub const INCOMPLETE: u32 = 8;
pub const LATER_FRAGMENT: u32 = 9;
pub const OTHER_PROTOCOL: u32 = 10;
pub const TOO_LONG: u32 = 11;
pub const VALUE_TOO_BIG: u32 = 12;

pub const REACH_UPPER: u32 = 1;
pub const REACH_LATER_FRAGMENT: u32 = 2;
pub const REACH_OTHER_PROTOCOL: u32 = 3;

/// Room in bytes for the longest text of an error and the 0 after it.
pub const ERROR_TEXT_SIZE: usize = 64;

/// A checksum, or why there is none.
#[repr(C)]
#[derive(Clone, Copy, Debug, Default, PartialEq, Eq)]
pub struct ChecksumAnswer {
    pub error: u32,
    pub checksum: u16,
}

/// How far the change of an address reaches, or why nothing is changed.
#[repr(C)]
#[derive(Clone, Copy, Debug, Default, PartialEq, Eq)]
pub struct ReachAnswer {
    pub error: u32,
    pub reach: u32,
}

unsafe extern "C" {
    pub fn etherparse_rewriting_error_text(error: u32, text: *mut u8, room: usize) -> usize;
    pub fn etherparse_checksum_ipv4(
        source: &[u8; 4],
        destination: &[u8; 4],
        protocol: u8,
        segment: *const u8,
        len: usize,
    ) -> ChecksumAnswer;
    pub fn etherparse_checksum_ipv6(
        source: &[u8; 16],
        destination: &[u8; 16],
        number: u8,
        segment: *const u8,
        len: usize,
    ) -> ChecksumAnswer;
    pub fn etherparse_set_checksum_ipv4(
        source: &[u8; 4],
        destination: &[u8; 4],
        protocol: u8,
        segment: *mut u8,
        len: usize,
    ) -> u32;
    pub fn etherparse_set_checksum_ipv6(
        source: &[u8; 16],
        destination: &[u8; 16],
        number: u8,
        segment: *mut u8,
        len: usize,
    ) -> u32;
    pub fn etherparse_set_source_ipv4(
        packet: *mut u8,
        len: usize,
        source: &[u8; 4],
    ) -> ReachAnswer;
    pub fn etherparse_set_destination_ipv4(
        packet: *mut u8,
        len: usize,
        destination: &[u8; 4],
    ) -> ReachAnswer;
    pub fn etherparse_set_source_ipv6(
        packet: *mut u8,
        len: usize,
        source: &[u8; 16],
    ) -> ReachAnswer;
    pub fn etherparse_set_destination_ipv6(
        packet: *mut u8,
        len: usize,
        destination: &[u8; 16],
    ) -> ReachAnswer;
    pub fn etherparse_set_source_port(packet: *mut u8, len: usize, port: u16) -> u32;
    pub fn etherparse_set_destination_port(packet: *mut u8, len: usize, port: u16) -> u32;
    pub fn etherparse_set_dscp(packet: *mut u8, len: usize, dscp: u8) -> u32;
    pub fn etherparse_set_ecn(packet: *mut u8, len: usize, ecn: u8) -> u32;
}

// The layout, as the library has it: a size in bytes, and each field's offset.
const _: () = assert!(core::mem::size_of::<ChecksumAnswer>() == 8);
const _: () = assert!(core::mem::offset_of!(ChecksumAnswer, checksum) == 4);
const _: () = assert!(core::mem::size_of::<ReachAnswer>() == 8);
const _: () = assert!(core::mem::offset_of!(ReachAnswer, reach) == 4);
