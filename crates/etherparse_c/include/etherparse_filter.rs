//! The declarations of `etherparse_filter.h` for Rust, in the editions 2021 and 2024. Functions have
//! the same names; structs have no prefix, and constants `FILTER_` for `ETHERPARSE_FILTER_`. That file
//! says what each call does, and what it requires of a caller.

#![allow(dead_code)]

pub const FILTER_SIZE: usize = 6176;
pub const FILTER_MAX_WORDS: usize = 64;

// The kinds of refusals.
pub const FILTER_OK: u32 = 0;
pub const FILTER_UNEXPECTED: u32 = 1;
pub const FILTER_MIXED: u32 = 2;
pub const FILTER_UNSUPPORTED: u32 = 3;
pub const FILTER_INCOMPLETE: u32 = 4;
pub const FILTER_TOO_LONG: u32 = 5;

// The operator at the place of a refusal.
pub const FILTER_FOUND_AND: u16 = 1;
pub const FILTER_FOUND_OR: u16 = 2;

// What could stand at the place of a refusal.
pub const FILTER_OPERAND: u16 = 1;
pub const FILTER_AND_OR: u16 = 2;
pub const FILTER_AND_OR_CLOSE: u16 = 3;
pub const FILTER_AND: u16 = 4;
pub const FILTER_AND_CLOSE: u16 = 5;
pub const FILTER_OR: u16 = 6;
pub const FILTER_OR_CLOSE: u16 = 7;
pub const FILTER_AFTER_IP: u16 = 8;
pub const FILTER_AFTER_ARP: u16 = 9;
pub const FILTER_AFTER_TRANSPORT: u16 = 10;
pub const FILTER_AFTER_VLAN: u16 = 11;
pub const FILTER_AFTER_DIRECTION: u16 = 12;
pub const FILTER_AFTER_TRANSPORT_DIRECTION: u16 = 13;
pub const FILTER_AFTER_ETHER: u16 = 14;
pub const FILTER_DESTINATION: u16 = 15;
pub const FILTER_ADDRESS: u16 = 16;
pub const FILTER_IPV4_ADDRESS: u16 = 17;
pub const FILTER_IPV6_ADDRESS: u16 = 18;
pub const FILTER_NETWORK: u16 = 19;
pub const FILTER_IPV4_NETWORK: u16 = 20;
pub const FILTER_IPV6_NETWORK: u16 = 21;
pub const FILTER_AFTER_ADDRESS: u16 = 22;
pub const FILTER_MASK: u16 = 23;
pub const FILTER_PORT: u16 = 24;
pub const FILTER_PORT_RANGE: u16 = 25;
pub const FILTER_PROTOCOL: u16 = 26;
pub const FILTER_ETHERNET_ADDRESS: u16 = 27;
pub const FILTER_ETHER_TYPE: u16 = 28;
pub const FILTER_FRAGMENT: u16 = 29;
pub const FILTER_WRONG: u16 = 30;
pub const FILTER_PLACE: u16 = 31;
pub const FILTER_CLOSE_BRACKET: u16 = 32;
pub const FILTER_RELATION: u16 = 33;
pub const FILTER_NUMBER: u16 = 34;
pub const FILTER_BITS: u16 = 35;

/// Room in bytes for the longest text of a refusal and the 0 after it.
pub const FILTER_ERROR_TEXT_SIZE: usize = 165;

/// A filter. Only the calls look into it.
#[repr(C, align(16))]
#[derive(Clone, Copy)]
pub struct Filter {
    pub memory: [core::mem::MaybeUninit<u8>; FILTER_SIZE],
}

impl Filter {
    /// The memory for a filter, before one is compiled into it.
    pub const fn uninit() -> Filter {
        Filter {
            memory: [core::mem::MaybeUninit::uninit(); FILTER_SIZE],
        }
    }
}

/// Why a text is no filter, as numbers.
#[repr(C)]
#[derive(Clone, Copy, Debug, Default, PartialEq, Eq)]
pub struct FilterRefusal {
    pub place: usize,
    pub kind: u32,
    pub expected: u16,
    pub found: u16,
}

/// A frame of a list, as `etherparse.rs` has it.
#[repr(C)]
#[derive(Clone, Copy, Debug)]
pub struct Frame {
    pub at: *const u8,
    pub len: usize,
    pub original_len: usize,
}

unsafe extern "C" {
    pub fn etherparse_filter_from_text(
        text: *const u8,
        len: usize,
        filter: &mut Filter,
        refusal: &mut FilterRefusal,
    ) -> bool;
    pub fn etherparse_filter_matches(
        filter: &mut Filter,
        link_type: u32,
        at: *const u8,
        len: usize,
        original_len: usize,
    ) -> bool;
    pub fn etherparse_filter_matches_batch(
        filter: &mut Filter,
        link_type: u32,
        frames: *const Frame,
        frame_count: usize,
        answers: *mut bool,
        answer_count: usize,
    ) -> usize;
    pub fn etherparse_filter_error_text(
        refusal: &FilterRefusal,
        text: *mut u8,
        len: usize,
    ) -> usize;
}

// The layout, as the library has it: a size in bytes, and each field's offset.
macro_rules! filter_layout {
    ($type:ident: $size:literal, $($field:ident $offset:literal),*) => {
        const _: () = assert!(core::mem::size_of::<$type>() == $size);
        $(const _: () = assert!(core::mem::offset_of!($type, $field) == $offset);)*
    };
}

filter_layout!(FilterRefusal: 16, place 0, kind 8, expected 12, found 14);
filter_layout!(Frame: 24, at 0, len 8, original_len 16);
const _: () = assert!(core::mem::size_of::<Filter>() == FILTER_SIZE);
