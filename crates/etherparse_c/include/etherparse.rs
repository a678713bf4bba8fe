//! The declarations of `etherparse.h` for Rust, in the editions 2021 and 2024, without the numbers
//! of its version. Functions have the same names; constants have no prefix, and structs have names
//! in Rust's style, such as `Ipv4ViewAnswer`. That file says what each call does, and what it
//! requires of a caller.
//!
//! The repository has a safe crate on top of them, `bindings/rust`.

#![allow(dead_code)]

pub const OK: u32 = 0;
pub const LEN: u32 = 1;
pub const UNEXPECTED_VERSION: u32 = 2;
pub const HEADER_LENGTH_SMALLER_THAN_HEADER: u32 = 3;
pub const TOO_MANY: u32 = 4;
pub const VALUE_TOO_BIG: u32 = 5;
pub const BAD_OPTIONS_LEN: u32 = 6;
pub const DATA_OFFSET: u32 = 7;
pub const LINK_TYPE: u32 = 8;

pub const IPV4_HEADER: u16 = 1;
pub const IPV4_PACKET: u16 = 2;
pub const IPV6_HEADER: u16 = 3;
pub const IPV6_EXT_HEADER: u16 = 4;
pub const LINK_HEADER: u16 = 5;
pub const VLAN_HEADER: u16 = 6;
pub const IP_HEADER: u16 = 7;
pub const IPV4_PACKET_BYTES: u16 = 8;
pub const IPV6_PACKET: u16 = 9;
pub const UDP_HEADER: u16 = 10;
pub const TCP_HEADER: u16 = 11;
pub const ICMPV4: u16 = 12;
pub const ICMPV6: u16 = 13;

pub const FROM_SLICE: u16 = 0;
pub const FROM_IPV4_TOTAL_LEN: u16 = 1;
pub const FROM_IPV6_PAYLOAD_LENGTH: u16 = 2;

pub const IP_FRAGMENT_OFFSET: u16 = 1;
pub const IP_DSCP: u16 = 2;
pub const IP_ECN: u16 = 3;
pub const IPV6_FLOW_LABEL: u16 = 4;
pub const IPV4_PAYLOAD_LENGTH: u16 = 5;
pub const IPV6_PAYLOAD_LENGTH: u16 = 6;

// Link headers.
pub const NO_LINK: u8 = 0;
pub const ETHERNET: u8 = 1;
pub const LINUX_SLL: u8 = 2;
pub const LINUX_SLL2: u8 = 3;
pub const LOOPBACK: u8 = 4;
pub const FRAMED: u8 = 5;

// What a receiver finds of a checksum.
pub const NOT_JUDGED: u8 = 0;
pub const RIGHT: u8 = 1;
pub const WRONG: u8 = 2;
pub const FRAGMENT: u8 = 3;
pub const OTHER_PROTOCOL: u8 = 4;
pub const INCOMPLETE: u8 = 5;
pub const NOT_COMPUTED: u8 = 6;
pub const UNKNOWN_DESTINATION: u8 = 7;

pub const LINKTYPE_NULL: u32 = 0;
pub const LINKTYPE_ETHERNET: u32 = 1;
pub const LINKTYPE_RAW: u32 = 101;
pub const LINKTYPE_LOOP: u32 = 108;
pub const LINKTYPE_LINUX_SLL: u32 = 113;
pub const LINKTYPE_LINUX_SLL2: u32 = 276;

/// Room in bytes for the longest text of an error and the 0 after it.
pub const ERROR_TEXT_SIZE: usize = 333;

/// A piece of a list.
#[repr(C)]
#[derive(Clone, Copy, Debug)]
pub struct Slice {
    pub at: *const u8,
    pub len: usize,
}

/// Why a call refused, as numbers.
#[repr(C)]
#[derive(Clone, Copy, Debug, Default, PartialEq, Eq)]
pub struct Error {
    pub kind: u32,
    pub number: u16,
    pub layer: u16,
    pub required_len: usize,
    pub len: usize,
    pub layer_start_offset: usize,
    pub limit: usize,
}

/// Where the rest of a slice is.
#[repr(C)]
#[derive(Clone, Copy, Debug, Default, PartialEq, Eq)]
pub struct Rest {
    pub offset: usize,
    pub len: usize,
}

/// The fields of an IPv4 header.
#[repr(C)]
#[derive(Clone, Copy, Debug, PartialEq, Eq)]
pub struct Ipv4Fields {
    pub dscp: u8,
    pub ecn: u8,
    pub total_len: u16,
    pub identification: u16,
    pub dont_fragment: bool,
    pub more_fragments: bool,
    pub fragment_offset: u16,
    pub time_to_live: u8,
    pub protocol: u8,
    pub header_checksum: u16,
    pub source: [u8; 4],
    pub destination: [u8; 4],
    pub options_len: u8,
    pub options: [u8; 40],
}

/// What the getters of a view of an IPv4 header return.
#[repr(C)]
#[derive(Clone, Copy, Debug, PartialEq, Eq)]
pub struct Ipv4ViewFields {
    pub source: [u8; 4],
    pub destination: [u8; 4],
    pub total_len: u16,
    pub identification: u16,
    pub fragment_offset: u16,
    pub header_checksum: u16,
    pub ihl: u8,
    pub dscp: u8,
    pub ecn: u8,
    pub dont_fragment: bool,
    pub more_fragments: bool,
    pub is_fragmenting_payload: bool,
    pub time_to_live: u8,
    pub protocol: u8,
}

/// The IPv4 header at the front of a slice, as a view.
#[repr(C)]
#[derive(Clone, Copy, Debug, PartialEq, Eq)]
pub struct Ipv4ViewAnswer {
    pub view: Ipv4ViewFields,
    pub error: Error,
    pub rest: Rest,
}

/// The IPv4 header at the front of a slice, with a copy of its options.
#[repr(C)]
#[derive(Clone, Copy, Debug, PartialEq, Eq)]
pub struct Ipv4ReadAnswer {
    pub fields: Ipv4Fields,
    pub error: Error,
    pub rest: Rest,
}

/// The bytes of an IPv4 header.
#[repr(C)]
#[derive(Clone, Copy, Debug, PartialEq, Eq)]
pub struct Ipv4Bytes {
    pub bytes: [u8; 60],
    pub len: u8,
}

/// An IPv4 header without options.
#[repr(C)]
#[derive(Clone, Copy, Debug, PartialEq, Eq)]
pub struct Ipv4NewAnswer {
    pub fields: Ipv4Fields,
    pub error: Error,
}

/// The checksum that an IPv4 header should have.
#[repr(C)]
#[derive(Clone, Copy, Debug, PartialEq, Eq)]
pub struct Ipv4HeaderChecksumAnswer {
    pub checksum: u16,
    pub accepted: bool,
}

/// The lengths of an IPv4 header and of its payload.
#[repr(C)]
#[derive(Clone, Copy, Debug, PartialEq, Eq)]
pub struct Ipv4LengthsAnswer {
    pub payload_len: u16,
    pub max_payload_len: u16,
    pub header_len: u8,
    pub ihl: u8,
    pub error: Error,
}

/// The fields of an IPv6 header.
#[repr(C)]
#[derive(Clone, Copy, Debug, PartialEq, Eq)]
pub struct Ipv6Fields {
    pub source: [u8; 16],
    pub destination: [u8; 16],
    pub flow_label: u32,
    pub payload_length: u16,
    pub traffic_class: u8,
    pub next_header: u8,
    pub hop_limit: u8,
}

/// What the getters of a view of an IPv6 header return.
#[repr(C)]
#[derive(Clone, Copy, Debug, PartialEq, Eq)]
pub struct Ipv6ViewFields {
    pub source: [u8; 16],
    pub destination: [u8; 16],
    pub flow_label: u32,
    pub payload_length: u16,
    pub traffic_class: u8,
    pub dscp: u8,
    pub ecn: u8,
    pub next_header: u8,
    pub hop_limit: u8,
}

/// The IPv6 header at the front of a slice, as a view.
#[repr(C)]
#[derive(Clone, Copy, Debug, PartialEq, Eq)]
pub struct Ipv6ViewAnswer {
    pub view: Ipv6ViewFields,
    pub error: Error,
    pub rest: Rest,
}

/// The IPv6 header at the front of a slice.
#[repr(C)]
#[derive(Clone, Copy, Debug, PartialEq, Eq)]
pub struct Ipv6ReadAnswer {
    pub fields: Ipv6Fields,
    pub error: Error,
    pub rest: Rest,
}

/// The bytes of an IPv6 header.
#[repr(C)]
#[derive(Clone, Copy, Debug, PartialEq, Eq)]
pub struct Ipv6Bytes {
    pub bytes: [u8; 40],
    pub len: u8,
}

/// Where a walk past extension headers ended.
#[repr(C)]
#[derive(Clone, Copy, Debug, PartialEq, Eq)]
pub struct Ipv6WalkAnswer {
    pub next_header: u8,
    pub error: Error,
    pub rest: Rest,
}

/// A part of a frame.
#[repr(C)]
#[derive(Clone, Copy, Debug, Default, PartialEq, Eq)]
pub struct Part {
    pub offset: usize,
    pub len: usize,
}

/// A VLAN tag.
#[repr(C)]
#[derive(Clone, Copy, Debug, Default, PartialEq, Eq)]
pub struct VlanTag {
    pub identifier: u16,
    pub priority: u8,
    pub drop_eligible: bool,
}

/// The link header of a frame and its VLAN tags.
#[repr(C)]
#[derive(Clone, Copy, Debug, Default, PartialEq, Eq)]
pub struct PacketLink {
    pub header: Part,
    pub payload: Part,
    pub family: u32,
    pub ether_type: u16,
    pub outer_vlan: VlanTag,
    pub inner_vlan: VlanTag,
    pub kind: u8,
    pub vlan_count: u8,
    pub has_ether_type: bool,
}

/// The IP packet of a frame.
#[repr(C)]
#[derive(Clone, Copy, Debug, Default, PartialEq, Eq)]
pub struct PacketIp {
    pub header: Part,
    pub extensions: Part,
    pub payload: Part,
    pub packet_len: usize,
    pub identification: u32,
    pub fragment_offset: u32,
    pub version: u8,
    pub upper: u8,
    pub is_fragment: bool,
    pub more_fragments: bool,
    pub is_later_fragment: bool,
    pub is_truncated: bool,
}

/// The transport header of an IP packet.
#[repr(C)]
#[derive(Clone, Copy, Debug, Default, PartialEq, Eq)]
pub struct PacketTransport {
    pub header: Part,
    pub payload: Part,
    pub source_port: u16,
    pub destination_port: u16,
    pub kind: u8,
    pub has_ports: bool,
    pub tcp_flags: u8,
    pub icmp_type: u8,
    pub icmp_code: u8,
}

/// A frame in its layers.
#[repr(C)]
#[derive(Clone, Copy, Debug, Default, PartialEq, Eq)]
pub struct Packet {
    pub link: PacketLink,
    pub ip: PacketIp,
    pub transport: PacketTransport,
    pub stop: Error,
    pub header_checksum: u8,
    pub payload_checksum: u8,
}

/// A frame of a list.
#[repr(C)]
#[derive(Clone, Copy, Debug)]
pub struct Frame {
    pub at: *const u8,
    pub len: usize,
    pub original_len: usize,
}

unsafe extern "C" {
    pub fn etherparse_u64_16bit_word_add_slice(start_sum: u64, at: *const u8, len: usize) -> u64;
    pub fn etherparse_u32_16bit_word_add_slice(start_sum: u32, at: *const u8, len: usize) -> u32;
    pub fn etherparse_u64_16bit_word_add_slices(pieces: *const Slice, count: usize) -> u64;
    pub fn etherparse_u32_16bit_word_add_slices(pieces: *const Slice, count: usize) -> u32;
    pub fn etherparse_u64_16bit_word_ones_complement(sum: u64) -> u16;
    pub fn etherparse_u32_16bit_word_ones_complement(sum: u32) -> u16;
    pub fn etherparse_u64_16bit_word_ones_complement_with_no_zero(sum: u64) -> u16;
    pub fn etherparse_u32_16bit_word_ones_complement_with_no_zero(sum: u32) -> u16;
    pub fn etherparse_u64_16bit_word_checksum(start_sum: u64, at: *const u8, len: usize) -> u16;
    pub fn etherparse_u32_16bit_word_checksum(start_sum: u32, at: *const u8, len: usize) -> u16;
    pub fn etherparse_swap_bytes(checksum: u16) -> u16;

    pub fn etherparse_update_2bytes(checksum: u16, old_word: u16, new_word: u16) -> u16;
    pub fn etherparse_update_4bytes(checksum: u16, old: &[u8; 4], new: &[u8; 4]) -> u16;
    pub fn etherparse_update_16bytes(checksum: u16, old: &[u8; 16], new: &[u8; 16]) -> u16;

    pub fn etherparse_error_text(error: &Error, text: *mut u8, len: usize) -> usize;

    pub fn etherparse_ipv4_view(at: *const u8, len: usize) -> Ipv4ViewAnswer;
    pub fn etherparse_ipv4_read(at: *const u8, len: usize) -> Ipv4ReadAnswer;
    pub fn etherparse_ipv4_write(fields: &Ipv4Fields) -> Ipv4Bytes;
    pub fn etherparse_ipv4_default() -> Ipv4Fields;
    pub fn etherparse_ipv4_new(
        payload_len: u16,
        time_to_live: u8,
        protocol: u8,
        source: &[u8; 4],
        destination: &[u8; 4],
    ) -> Ipv4NewAnswer;
    pub fn etherparse_ipv4_lengths(total_len: u16, options_len: u8) -> Ipv4LengthsAnswer;
    pub fn etherparse_ipv4_header_checksum(fields: &Ipv4Fields) -> Ipv4HeaderChecksumAnswer;
    pub fn etherparse_ipv4_set_time_to_live(fields: &mut Ipv4Fields, time_to_live: u8) -> bool;

    pub fn etherparse_ipv6_view(at: *const u8, len: usize) -> Ipv6ViewAnswer;
    pub fn etherparse_ipv6_read(at: *const u8, len: usize) -> Ipv6ReadAnswer;
    pub fn etherparse_ipv6_write(fields: &Ipv6Fields) -> Ipv6Bytes;
    pub fn etherparse_ipv6_default() -> Ipv6Fields;
    pub fn etherparse_ipv6_skip(at: *const u8, len: usize, next_header: u8) -> Ipv6WalkAnswer;
    pub fn etherparse_ipv6_walk(at: *const u8, len: usize, next_header: u8) -> Ipv6WalkAnswer;
    pub fn etherparse_ipv6_walk_up_to(
        at: *const u8,
        len: usize,
        next_header: u8,
        limit: usize,
    ) -> Ipv6WalkAnswer;

    pub fn etherparse_packet_lax_from_link_type(
        link_type: u32,
        at: *const u8,
        len: usize,
        checksums: bool,
        answer: &mut Packet,
    );
    pub fn etherparse_packet_strict_from_link_type(
        link_type: u32,
        at: *const u8,
        len: usize,
        checksums: bool,
        answer: &mut Packet,
    );
    pub fn etherparse_packet_lax_from_ether_type(
        ether_type: u16,
        at: *const u8,
        len: usize,
        checksums: bool,
        answer: &mut Packet,
    );
    pub fn etherparse_packet_strict_from_ether_type(
        ether_type: u16,
        at: *const u8,
        len: usize,
        checksums: bool,
        answer: &mut Packet,
    );
    pub fn etherparse_packet_lax_batch(
        link_type: u32,
        frames: *const Frame,
        frame_count: usize,
        checksums: bool,
        answers: *mut Packet,
        answer_count: usize,
    ) -> usize;
}

// The layout, as the library has it: a size in bytes, and each field's offset.
macro_rules! layout {
    ($type:ident: $size:literal, $($field:ident $offset:literal),*) => {
        const _: () = assert!(core::mem::size_of::<$type>() == $size);
        $(const _: () = assert!(core::mem::offset_of!($type, $field) == $offset);)*
    };
}

layout!(Slice: 16, at 0, len 8);
layout!(
    Error: 40,
    kind 0, number 4, layer 6, required_len 8, len 16, layer_start_offset 24, limit 32
);
layout!(Rest: 16, offset 0, len 8);
layout!(
    Ipv4Fields: 64,
    dscp 0, ecn 1, total_len 2, identification 4, dont_fragment 6, more_fragments 7,
    fragment_offset 8, time_to_live 10, protocol 11, header_checksum 12, source 14, destination 18,
    options_len 22, options 23
);
layout!(
    Ipv4ViewFields: 24,
    source 0, destination 4, total_len 8, identification 10, fragment_offset 12,
    header_checksum 14, ihl 16, dscp 17, ecn 18, dont_fragment 19, more_fragments 20,
    is_fragmenting_payload 21, time_to_live 22, protocol 23
);
layout!(Ipv4ViewAnswer: 80, view 0, error 24, rest 64);
layout!(Ipv4ReadAnswer: 120, fields 0, error 64, rest 104);
layout!(Ipv4Bytes: 61, bytes 0, len 60);
layout!(Ipv4NewAnswer: 104, fields 0, error 64);
layout!(Ipv4HeaderChecksumAnswer: 4, checksum 0, accepted 2);
layout!(Ipv4LengthsAnswer: 48, payload_len 0, max_payload_len 2, header_len 4, ihl 5, error 8);
layout!(
    Ipv6Fields: 44,
    source 0, destination 16, flow_label 32, payload_length 36, traffic_class 38, next_header 39,
    hop_limit 40
);
layout!(
    Ipv6ViewFields: 44,
    source 0, destination 16, flow_label 32, payload_length 36, traffic_class 38, dscp 39, ecn 40,
    next_header 41, hop_limit 42
);
layout!(Ipv6ViewAnswer: 104, view 0, error 48, rest 88);
layout!(Ipv6ReadAnswer: 104, fields 0, error 48, rest 88);
layout!(Ipv6Bytes: 41, bytes 0, len 40);
layout!(Ipv6WalkAnswer: 64, next_header 0, error 8, rest 48);
layout!(Part: 16, offset 0, len 8);
layout!(VlanTag: 4, identifier 0, priority 2, drop_eligible 3);
layout!(
    PacketLink: 56,
    header 0, payload 16, family 32, ether_type 36, outer_vlan 38, inner_vlan 42, kind 46,
    vlan_count 47, has_ether_type 48
);
layout!(
    PacketIp: 72,
    header 0, extensions 16, payload 32, packet_len 48, identification 56, fragment_offset 60,
    version 64, upper 65, is_fragment 66, more_fragments 67, is_later_fragment 68, is_truncated 69
);
layout!(
    PacketTransport: 48,
    header 0, payload 16, source_port 32, destination_port 34, kind 36, has_ports 37, tcp_flags 38,
    icmp_type 39, icmp_code 40
);
layout!(
    Packet: 224,
    link 0, ip 56, transport 128, stop 176, header_checksum 216, payload_checksum 217
);
layout!(Frame: 24, at 0, len 8, original_len 16);
