//! The declarations of `etherparse.h`, without its prefixes: what it says of each holds here. Each
//! other header file has a module. `tests/declarations.rs` compares them with these files.

#![allow(dead_code)]

macro_rules! constants {
    ($($type:ty: $($name:ident = $number:literal,)*;)*) => {
        $($(pub const $name: $type = $number;)*)*
    };
}

// A struct with its size, and each field with its offset, both in bytes.
macro_rules! structs {
    ($($(#[$attribute:meta])* $name:ident, $size:literal {
        $($field:ident: $type:ty = $offset:literal,)*
    })*) => { $(
        $(#[$attribute])*
        #[repr(C)]
        #[derive(Clone, Copy, Debug)]
        pub struct $name {
            $(pub $field: $type,)*
        }

        const _: () = assert!(core::mem::size_of::<$name>() == $size);
        $(const _: () = assert!(core::mem::offset_of!($name, $field) == $offset);)*
    )* };
}

macro_rules! functions {
    ($($name:ident($($parameter:ident: $type:ty),*) $(-> $answer:ty)?;)*) => {
        unsafe extern "C" {
            $(pub fn $name($($parameter: $type),*) $(-> $answer)?;)*
        }
    };
}

pub mod filter;
pub mod reassembly;
pub mod rewriting;

constants! {
    u32:
        OK = 0, LEN = 1, UNEXPECTED_VERSION = 2, HEADER_LENGTH_SMALLER_THAN_HEADER = 3,
        TOO_MANY = 4, VALUE_TOO_BIG = 5, BAD_OPTIONS_LEN = 6, DATA_OFFSET = 7, LINK_TYPE = 8,
    ;
    u16:
        IPV4_HEADER = 1, IPV4_PACKET = 2, IPV6_HEADER = 3, IPV6_EXT_HEADER = 4, LINK_HEADER = 5,
        VLAN_HEADER = 6, IP_HEADER = 7, IPV4_PACKET_BYTES = 8, IPV6_PACKET = 9, UDP_HEADER = 10,
        TCP_HEADER = 11, ICMPV4 = 12, ICMPV6 = 13,
    ;
    u16:
        FROM_SLICE = 0, FROM_IPV4_TOTAL_LEN = 1, FROM_IPV6_PAYLOAD_LENGTH = 2,
    ;
    u16:
        IP_FRAGMENT_OFFSET = 1, IP_DSCP = 2, IP_ECN = 3, IPV6_FLOW_LABEL = 4,
        IPV4_PAYLOAD_LENGTH = 5, IPV6_PAYLOAD_LENGTH = 6,
    ;
    u8:
        NO_LINK = 0, ETHERNET = 1, LINUX_SLL = 2, LINUX_SLL2 = 3, LOOPBACK = 4, FRAMED = 5,
    ;
    u8:
        NOT_JUDGED = 0, RIGHT = 1, WRONG = 2, FRAGMENT = 3, OTHER_PROTOCOL = 4, INCOMPLETE = 5,
        NOT_COMPUTED = 6, UNKNOWN_DESTINATION = 7,
    ;
    u32:
        LINKTYPE_NULL = 0, LINKTYPE_ETHERNET = 1, LINKTYPE_RAW = 101, LINKTYPE_LOOP = 108,
        LINKTYPE_LINUX_SLL = 113, LINKTYPE_LINUX_SLL2 = 276,
    ;
    usize:
        ERROR_TEXT_SIZE = 333,
    ;
}

structs! {
    Slice, 16 {
        at: *const u8 = 0,
        len: usize = 8,
    }

    #[derive(Default)]
    Error, 40 {
        kind: u32 = 0,
        number: u16 = 4,
        layer: u16 = 6,
        required_len: usize = 8,
        len: usize = 16,
        layer_start_offset: usize = 24,
        limit: usize = 32,
    }

    #[derive(Default)]
    Rest, 16 {
        offset: usize = 0,
        len: usize = 8,
    }

    Ipv4Fields, 64 {
        dscp: u8 = 0,
        ecn: u8 = 1,
        total_len: u16 = 2,
        identification: u16 = 4,
        dont_fragment: bool = 6,
        more_fragments: bool = 7,
        fragment_offset: u16 = 8,
        time_to_live: u8 = 10,
        protocol: u8 = 11,
        header_checksum: u16 = 12,
        source: [u8; 4] = 14,
        destination: [u8; 4] = 18,
        options_len: u8 = 22,
        options: [u8; 40] = 23,
    }

    Ipv4ViewFields, 24 {
        source: [u8; 4] = 0,
        destination: [u8; 4] = 4,
        total_len: u16 = 8,
        identification: u16 = 10,
        fragment_offset: u16 = 12,
        header_checksum: u16 = 14,
        ihl: u8 = 16,
        dscp: u8 = 17,
        ecn: u8 = 18,
        dont_fragment: bool = 19,
        more_fragments: bool = 20,
        is_fragmenting_payload: bool = 21,
        time_to_live: u8 = 22,
        protocol: u8 = 23,
    }

    Ipv4ViewAnswer, 80 {
        view: Ipv4ViewFields = 0,
        error: Error = 24,
        rest: Rest = 64,
    }

    Ipv4ReadAnswer, 120 {
        fields: Ipv4Fields = 0,
        error: Error = 64,
        rest: Rest = 104,
    }

    Ipv4Bytes, 61 {
        bytes: [u8; 60] = 0,
        len: u8 = 60,
    }

    Ipv4NewAnswer, 104 {
        fields: Ipv4Fields = 0,
        error: Error = 64,
    }

    Ipv4HeaderChecksumAnswer, 4 {
        checksum: u16 = 0,
        accepted: bool = 2,
    }

    Ipv4LengthsAnswer, 48 {
        payload_len: u16 = 0,
        max_payload_len: u16 = 2,
        header_len: u8 = 4,
        ihl: u8 = 5,
        error: Error = 8,
    }

    Ipv6Fields, 44 {
        source: [u8; 16] = 0,
        destination: [u8; 16] = 16,
        flow_label: u32 = 32,
        payload_length: u16 = 36,
        traffic_class: u8 = 38,
        next_header: u8 = 39,
        hop_limit: u8 = 40,
    }

    Ipv6ViewFields, 44 {
        source: [u8; 16] = 0,
        destination: [u8; 16] = 16,
        flow_label: u32 = 32,
        payload_length: u16 = 36,
        traffic_class: u8 = 38,
        dscp: u8 = 39,
        ecn: u8 = 40,
        next_header: u8 = 41,
        hop_limit: u8 = 42,
    }

    Ipv6ViewAnswer, 104 {
        view: Ipv6ViewFields = 0,
        error: Error = 48,
        rest: Rest = 88,
    }

    Ipv6ReadAnswer, 104 {
        fields: Ipv6Fields = 0,
        error: Error = 48,
        rest: Rest = 88,
    }

    Ipv6Bytes, 41 {
        bytes: [u8; 40] = 0,
        len: u8 = 40,
    }

    Ipv6WalkAnswer, 64 {
        next_header: u8 = 0,
        error: Error = 8,
        rest: Rest = 48,
    }

    #[derive(Default)]
    Part, 16 {
        offset: usize = 0,
        len: usize = 8,
    }

    #[derive(Default, PartialEq, Eq)]
    VlanTag, 4 {
        identifier: u16 = 0,
        priority: u8 = 2,
        drop_eligible: bool = 3,
    }

    #[derive(Default)]
    PacketLink, 56 {
        header: Part = 0,
        payload: Part = 16,
        family: u32 = 32,
        ether_type: u16 = 36,
        outer_vlan: VlanTag = 38,
        inner_vlan: VlanTag = 42,
        kind: u8 = 46,
        vlan_count: u8 = 47,
        has_ether_type: bool = 48,
    }

    #[derive(Default)]
    PacketIp, 72 {
        header: Part = 0,
        extensions: Part = 16,
        payload: Part = 32,
        packet_len: usize = 48,
        identification: u32 = 56,
        fragment_offset: u32 = 60,
        version: u8 = 64,
        upper: u8 = 65,
        is_fragment: bool = 66,
        more_fragments: bool = 67,
        is_later_fragment: bool = 68,
        is_truncated: bool = 69,
    }

    #[derive(Default)]
    PacketTransport, 48 {
        header: Part = 0,
        payload: Part = 16,
        source_port: u16 = 32,
        destination_port: u16 = 34,
        kind: u8 = 36,
        has_ports: bool = 37,
        tcp_flags: u8 = 38,
        icmp_type: u8 = 39,
        icmp_code: u8 = 40,
    }

    #[derive(Default)]
    Packet, 224 {
        link: PacketLink = 0,
        ip: PacketIp = 56,
        transport: PacketTransport = 128,
        stop: Error = 176,
        header_checksum: u8 = 216,
        payload_checksum: u8 = 217,
    }

    Frame, 24 {
        at: *const u8 = 0,
        len: usize = 8,
        original_len: usize = 16,
    }
}

functions! {
    etherparse_u64_16bit_word_add_slice(start_sum: u64, at: *const u8, len: usize) -> u64;
    etherparse_u32_16bit_word_add_slice(start_sum: u32, at: *const u8, len: usize) -> u32;
    etherparse_u64_16bit_word_add_slices(pieces: *const Slice, count: usize) -> u64;
    etherparse_u32_16bit_word_add_slices(pieces: *const Slice, count: usize) -> u32;
    etherparse_u64_16bit_word_ones_complement(sum: u64) -> u16;
    etherparse_u32_16bit_word_ones_complement(sum: u32) -> u16;
    etherparse_u64_16bit_word_ones_complement_with_no_zero(sum: u64) -> u16;
    etherparse_u32_16bit_word_ones_complement_with_no_zero(sum: u32) -> u16;
    etherparse_u64_16bit_word_checksum(start_sum: u64, at: *const u8, len: usize) -> u16;
    etherparse_u32_16bit_word_checksum(start_sum: u32, at: *const u8, len: usize) -> u16;
    etherparse_swap_bytes(checksum: u16) -> u16;
    etherparse_update_2bytes(checksum: u16, old_word: u16, new_word: u16) -> u16;
    etherparse_update_4bytes(checksum: u16, old: &[u8; 4], new: &[u8; 4]) -> u16;
    etherparse_update_16bytes(checksum: u16, old: &[u8; 16], new: &[u8; 16]) -> u16;
    etherparse_error_text(error: &Error, text: *mut u8, len: usize) -> usize;
    etherparse_ipv4_view(at: *const u8, len: usize) -> Ipv4ViewAnswer;
    etherparse_ipv4_read(at: *const u8, len: usize) -> Ipv4ReadAnswer;
    etherparse_ipv4_write(fields: &Ipv4Fields) -> Ipv4Bytes;
    etherparse_ipv4_default() -> Ipv4Fields;
    etherparse_ipv4_new(
        payload_len: u16, time_to_live: u8, protocol: u8, source: &[u8; 4], destination: &[u8; 4]
    ) -> Ipv4NewAnswer;
    etherparse_ipv4_lengths(total_len: u16, options_len: u8) -> Ipv4LengthsAnswer;
    etherparse_ipv4_header_checksum(fields: &Ipv4Fields) -> Ipv4HeaderChecksumAnswer;
    etherparse_ipv4_set_time_to_live(fields: &mut Ipv4Fields, time_to_live: u8) -> bool;
    etherparse_ipv6_view(at: *const u8, len: usize) -> Ipv6ViewAnswer;
    etherparse_ipv6_read(at: *const u8, len: usize) -> Ipv6ReadAnswer;
    etherparse_ipv6_write(fields: &Ipv6Fields) -> Ipv6Bytes;
    etherparse_ipv6_default() -> Ipv6Fields;
    etherparse_ipv6_skip(at: *const u8, len: usize, next_header: u8) -> Ipv6WalkAnswer;
    etherparse_ipv6_walk(at: *const u8, len: usize, next_header: u8) -> Ipv6WalkAnswer;
    etherparse_ipv6_walk_up_to(
        at: *const u8, len: usize, next_header: u8, limit: usize
    ) -> Ipv6WalkAnswer;
    etherparse_packet_lax_from_link_type(
        link_type: u32, at: *const u8, len: usize, checksums: bool, answer: &mut Packet
    );
    etherparse_packet_strict_from_link_type(
        link_type: u32, at: *const u8, len: usize, checksums: bool, answer: &mut Packet
    );
    etherparse_packet_lax_from_ether_type(
        ether_type: u16, at: *const u8, len: usize, checksums: bool, answer: &mut Packet
    );
    etherparse_packet_strict_from_ether_type(
        ether_type: u16, at: *const u8, len: usize, checksums: bool, answer: &mut Packet
    );
    etherparse_packet_lax_batch(
        link_type: u32, frames: *const Frame, frame_count: usize, checksums: bool,
        answers: *mut Packet, answer_count: usize
    ) -> usize;
}
