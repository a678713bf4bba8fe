//! The declarations of `etherparse_filter.h`, as `ffi.rs` has those of `etherparse.h`.

use super::Frame;
use core::mem::{align_of, size_of, MaybeUninit};

constants! {
    usize:
        SIZE = 6176, ALIGN = 16, MAX_WORDS = 64, ERROR_TEXT_SIZE = 165,
    ;
    u32:
        OK = 0, UNEXPECTED = 1, MIXED = 2, UNSUPPORTED = 3, INCOMPLETE = 4, TOO_LONG = 5,
    ;
    u16:
        FOUND_AND = 1, FOUND_OR = 2,
    ;
    u16:
        OPERAND = 1, AND_OR = 2, AND_OR_CLOSE = 3, AND = 4, AND_CLOSE = 5, OR = 6, OR_CLOSE = 7,
        AFTER_IP = 8, AFTER_ARP = 9, AFTER_TRANSPORT = 10, AFTER_VLAN = 11, AFTER_DIRECTION = 12,
        AFTER_TRANSPORT_DIRECTION = 13, AFTER_ETHER = 14, DESTINATION = 15, ADDRESS = 16,
        IPV4_ADDRESS = 17, IPV6_ADDRESS = 18, NETWORK = 19, IPV4_NETWORK = 20, IPV6_NETWORK = 21,
        AFTER_ADDRESS = 22, MASK = 23, PORT = 24, PORT_RANGE = 25, PROTOCOL = 26,
        ETHERNET_ADDRESS = 27, ETHER_TYPE = 28, FRAGMENT = 29, WRONG = 30, PLACE = 31,
        CLOSE_BRACKET = 32, RELATION = 33, NUMBER = 34, BITS = 35,
    ;
}

/// The memory of a filter. Only the calls look into it.
#[repr(C, align(16))]
#[derive(Clone, Copy)]
pub struct Filter {
    memory: [MaybeUninit<u8>; SIZE],
}

const _: () = assert!(size_of::<Filter>() == SIZE && align_of::<Filter>() == ALIGN);

impl Filter {
    /// Memory in which no filter is yet.
    pub const fn uninit() -> Filter {
        Filter {
            memory: [MaybeUninit::uninit(); SIZE],
        }
    }
}

structs! {
    #[derive(Default)]
    FilterRefusal, 16 {
        place: usize = 0,
        kind: u32 = 8,
        expected: u16 = 12,
        found: u16 = 14,
    }
}

functions! {
    etherparse_filter_from_text(
        text: *const u8, len: usize, filter: &mut Filter, refusal: &mut FilterRefusal
    ) -> bool;
    etherparse_filter_matches(
        filter: &mut Filter, link_type: u32, at: *const u8, len: usize, original_len: usize
    ) -> bool;
    etherparse_filter_matches_batch(
        filter: &mut Filter, link_type: u32, frames: *const Frame, frame_count: usize,
        answers: *mut bool, answer_count: usize
    ) -> usize;
    etherparse_filter_error_text(refusal: &FilterRefusal, text: *mut u8, len: usize) -> usize;
}
