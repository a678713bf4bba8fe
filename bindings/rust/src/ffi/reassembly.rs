//! The declarations of `etherparse_reassembly.h`, as `ffi.rs` has those of `etherparse.h`.

constants! {
    u32:
        OK = 0, EMPTY = 1, UNALIGNED_LEN = 2, TOO_BIG = 3, PACKET = 4, HEADER_CHAIN = 5,
        HEADERS_TOO_LONG = 6, OFFSET = 7, PACKET_TOO_LONG = 8,
    ;
    u32:
        INCOMPLETE = 0, COMPLETE = 1, DISCARDED = 2, NO_FRAGMENT = 3,
    ;
    usize:
        ERROR_TEXT_SIZE = 122, BUF_MEMORY = 73727, SLOT_MEMORY = 75007, PACKET_SIZE = 65575,
    ;
    u64:
        TIMEOUT_SECONDS = 60,
    ;
    u32:
        NO_VLAN = 65536,
    ;
}

structs! {
    #[derive(Default)]
    DefragError, 16 {
        kind: u32 = 0,
        offset: u16 = 4,
        len: usize = 8,
    }

    DefragBufState, 64 {
        words: [u64; 8] = 0,
    }

    DefragBuf, 8 {
        state: *mut DefragBufState = 0,
    }

    DefragSlot, 168 {
        words: [u64; 21] = 0,
    }

    DefragPoolState, 24 {
        words: [u64; 3] = 0,
    }

    DefragPool, 8 {
        state: *mut DefragPoolState = 0,
    }

    FragId, 48 {
        outer_vlan_id: u32 = 0,
        inner_vlan_id: u32 = 4,
        identification: u32 = 8,
        version: u8 = 12,
        protocol: u8 = 13,
        source: [u8; 16] = 14,
        destination: [u8; 16] = 30,
    }

    DefragAdded, 80 {
        error: DefragError = 0,
        slot: usize = 16,
        state: u32 = 24,
        given_up: FragId = 28,
    }

    DefragWritten, 24 {
        len: usize = 0,
        error: DefragError = 8,
    }
}

functions! {
    etherparse_defrag_error_text(error: &DefragError, text: *mut u8, len: usize) -> usize;
    etherparse_defrag_buf_new(state: *mut DefragBufState, memory: *mut u8, len: usize);
    etherparse_defrag_buf_add(
        buf: &mut DefragBuf, offset: u16, more_fragments: bool, payload: *const u8, len: usize
    ) -> DefragError;
    etherparse_defrag_buf_datagram_state(buf: &mut DefragBuf) -> u32;
    etherparse_defrag_buf_datagram(buf: &mut DefragBuf, out: *mut u8, len: usize) -> usize;
    etherparse_defrag_buf_clear(buf: &mut DefragBuf);
    etherparse_defrag_slot_new(slot: *mut DefragSlot, memory: *mut u8, len: usize);
    etherparse_defrag_pool_new(
        state: *mut DefragPoolState, slots: *mut DefragSlot, count: usize, timeout: u64
    );
    etherparse_defrag_pool_add_packet(
        pool: &mut DefragPool, packet: *const u8, len: usize, outer_vlan_id: u32,
        inner_vlan_id: u32, now: u64
    ) -> DefragAdded;
    etherparse_defrag_pool_write_packet(
        pool: &mut DefragPool, slot: usize, out: *mut u8, len: usize
    ) -> DefragWritten;
    etherparse_defrag_pool_release(pool: &mut DefragPool, slot: usize);
}
