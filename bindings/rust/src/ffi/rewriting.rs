//! The declarations of `etherparse_rewriting.h`, as `ffi.rs` has those of `etherparse.h`.

constants! {
    u32:
        OK = 0, EMPTY = 1, UNEXPECTED_VERSION = 2, IPV4_HEADER = 3, IPV6_HEADER = 4, PACKET = 5,
        EXTENSIONS = 6, OTHER_VERSION = 7, INCOMPLETE = 8, LATER_FRAGMENT = 9, OTHER_PROTOCOL = 10,
        TOO_LONG = 11, VALUE_TOO_BIG = 12,
    ;
    u32:
        REACH_UPPER = 1, REACH_LATER_FRAGMENT = 2, REACH_OTHER_PROTOCOL = 3,
    ;
    usize:
        ERROR_TEXT_SIZE = 64,
    ;
}

structs! {
    ChecksumAnswer, 8 {
        error: u32 = 0,
        checksum: u16 = 4,
    }

    ReachAnswer, 8 {
        error: u32 = 0,
        reach: u32 = 4,
    }
}

functions! {
    etherparse_rewriting_error_text(error: u32, text: *mut u8, room: usize) -> usize;
    etherparse_checksum_ipv4(
        source: &[u8; 4], destination: &[u8; 4], protocol: u8, segment: *const u8, len: usize
    ) -> ChecksumAnswer;
    etherparse_checksum_ipv6(
        source: &[u8; 16], destination: &[u8; 16], number: u8, segment: *const u8, len: usize
    ) -> ChecksumAnswer;
    etherparse_set_checksum_ipv4(
        source: &[u8; 4], destination: &[u8; 4], protocol: u8, segment: *mut u8, len: usize
    ) -> u32;
    etherparse_set_checksum_ipv6(
        source: &[u8; 16], destination: &[u8; 16], number: u8, segment: *mut u8, len: usize
    ) -> u32;
    etherparse_set_source_ipv4(packet: *mut u8, len: usize, source: &[u8; 4]) -> ReachAnswer;
    etherparse_set_destination_ipv4(
        packet: *mut u8, len: usize, destination: &[u8; 4]
    ) -> ReachAnswer;
    etherparse_set_source_ipv6(packet: *mut u8, len: usize, source: &[u8; 16]) -> ReachAnswer;
    etherparse_set_destination_ipv6(
        packet: *mut u8, len: usize, destination: &[u8; 16]
    ) -> ReachAnswer;
    etherparse_set_source_port(packet: *mut u8, len: usize, port: u16) -> u32;
    etherparse_set_destination_port(packet: *mut u8, len: usize, port: u16) -> u32;
    etherparse_set_dscp(packet: *mut u8, len: usize, dscp: u8) -> u32;
    etherparse_set_ecn(packet: *mut u8, len: usize, ecn: u8) -> u32;
}
