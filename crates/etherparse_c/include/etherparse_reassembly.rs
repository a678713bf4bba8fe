//! The declarations of `etherparse_reassembly.h` for Rust, in the editions 2021 and 2024. Functions
//! have the same names; constants have no prefix, and structs have names in Rust's style, such as
//! `DefragAdded`. That file says what each call does, and what it requires of a caller.

#![allow(dead_code)]

pub const OK: u32 = 0;
pub const EMPTY: u32 = 1;
pub const UNALIGNED_LEN: u32 = 2;
pub const TOO_BIG: u32 = 3;
pub const PACKET: u32 = 4;
pub const HEADER_CHAIN: u32 = 5;
pub const HEADERS_TOO_LONG: u32 = 6;
pub const OFFSET: u32 = 7;
pub const PACKET_TOO_LONG: u32 = 8;

// What is known of a datagram.
pub const INCOMPLETE: u32 = 0;
pub const COMPLETE: u32 = 1;
pub const DISCARDED: u32 = 2;
pub const NO_FRAGMENT: u32 = 3;

/// Room in bytes for the longest text of an error and the 0 after it.
pub const ERROR_TEXT_SIZE: usize = 122;

/// The memory that a datagram takes, in bytes.
pub const BUF_MEMORY: usize = 73727;

/// The memory that a slot takes, in bytes.
pub const SLOT_MEMORY: usize = 75007;

/// The longest packet, in bytes.
pub const PACKET_SIZE: usize = 65575;

/// How long RFC 8200 section 4.5 has a datagram kept, in seconds.
pub const TIMEOUT_SECONDS: u64 = 60;

/// In the place of a VLAN identifier: there is no tag.
pub const NO_VLAN: u32 = 65536;

/// Why a call refused, as numbers.
#[repr(C)]
#[derive(Clone, Copy, Debug, Default, PartialEq, Eq)]
pub struct DefragError {
    pub kind: u32,
    pub offset: u16,
    pub len: usize,
}

/// The state of a datagram.
#[repr(C)]
#[derive(Debug)]
pub struct DefragBufState {
    pub words: [u64; 8],
}

/// The fragments that have come of a datagram.
#[repr(C)]
#[derive(Debug)]
pub struct DefragBuf {
    pub state: *mut DefragBufState,
}

/// The memory of one datagram, and which one has it.
#[repr(C)]
#[derive(Debug)]
pub struct DefragSlot {
    pub words: [u64; 21],
}

/// The state of a pool.
#[repr(C)]
#[derive(Debug)]
pub struct DefragPoolState {
    pub words: [u64; 3],
}

/// Many datagrams, in slots.
#[repr(C)]
#[derive(Debug)]
pub struct DefragPool {
    pub state: *mut DefragPoolState,
}

/// What all fragments of one packet have in common.
#[repr(C)]
#[derive(Clone, Copy, Debug, Default, PartialEq, Eq)]
pub struct FragId {
    pub outer_vlan_id: u32,
    pub inner_vlan_id: u32,
    pub identification: u32,
    pub version: u8,
    pub protocol: u8,
    pub source: [u8; 16],
    pub destination: [u8; 16],
}

/// What became of a packet.
#[repr(C)]
#[derive(Clone, Copy, Debug, Default, PartialEq, Eq)]
pub struct DefragAdded {
    pub error: DefragError,
    pub slot: usize,
    pub state: u32,
    pub given_up: FragId,
}

/// A packet that was written.
#[repr(C)]
#[derive(Clone, Copy, Debug, Default, PartialEq, Eq)]
pub struct DefragWritten {
    pub len: usize,
    pub error: DefragError,
}

unsafe extern "C" {
    pub fn etherparse_defrag_error_text(
        error: *const DefragError,
        text: *mut u8,
        len: usize,
    ) -> usize;
    pub fn etherparse_defrag_buf_new(state: *mut DefragBufState, memory: *mut u8, len: usize);
    pub fn etherparse_defrag_buf_add(
        buf: *mut DefragBuf,
        offset: u16,
        more_fragments: bool,
        payload: *const u8,
        len: usize,
    ) -> DefragError;
    pub fn etherparse_defrag_buf_datagram_state(buf: *mut DefragBuf) -> u32;
    pub fn etherparse_defrag_buf_datagram(buf: *mut DefragBuf, out: *mut u8, len: usize) -> usize;
    pub fn etherparse_defrag_buf_clear(buf: *mut DefragBuf);
    pub fn etherparse_defrag_slot_new(slot: *mut DefragSlot, memory: *mut u8, len: usize);
    pub fn etherparse_defrag_pool_new(
        state: *mut DefragPoolState,
        slots: *mut DefragSlot,
        count: usize,
        timeout: u64,
    );
    pub fn etherparse_defrag_pool_add_packet(
        pool: *mut DefragPool,
        packet: *const u8,
        len: usize,
        outer_vlan_id: u32,
        inner_vlan_id: u32,
        now: u64,
    ) -> DefragAdded;
    pub fn etherparse_defrag_pool_write_packet(
        pool: *mut DefragPool,
        slot: usize,
        out: *mut u8,
        len: usize,
    ) -> DefragWritten;
    pub fn etherparse_defrag_pool_release(pool: *mut DefragPool, slot: usize);
}

// The sizes and offsets of `etherparse_reassembly.h`.
macro_rules! layout {
    ($type:ident: $size:literal, $($field:ident $offset:literal),*) => {
        const _: () = assert!(core::mem::size_of::<$type>() == $size);
        $(const _: () = assert!(core::mem::offset_of!($type, $field) == $offset);)*
    };
}

layout!(DefragError: 16, kind 0, offset 4, len 8);
layout!(DefragBufState: 64, words 0);
layout!(DefragBuf: 8, state 0);
layout!(DefragSlot: 168, words 0);
layout!(DefragPoolState: 24, words 0);
layout!(DefragPool: 8, state 0);
layout!(
    FragId: 48,
    outer_vlan_id 0, inner_vlan_id 4, identification 8, version 12, protocol 13, source 14,
    destination 30
);
layout!(DefragAdded: 80, error 0, slot 16, state 24, given_up 28);
layout!(DefragWritten: 24, len 0, error 8);
