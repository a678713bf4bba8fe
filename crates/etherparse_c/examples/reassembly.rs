//! Puts fragments together: those of one datagram, and the packets of a pool, and prints what it
//! finds.

#[path = "../include/etherparse_reassembly.rs"]
mod etherparse_reassembly;

use etherparse_reassembly::*;

const STATES: [&str; 4] = ["incomplete", "complete", "discarded", "no fragment"];

// Fragments of one datagram: the offset, whether more follow, and the bytes.
const FRAGMENTS: &[(u16, bool, &str)] = &[
    (1, false, "bytes"),
    (0, true, "thirteen"),
    (1, false, "bytes"),
    (0, true, ""),
    (2, true, "three"),
    (8191, false, "too long"),
    (8192, false, "no offset"),
    (0, true, "nineteen"),
    (0, true, "thirteen"),
];

// Packets, as hex digits; the VLAN that they came in, and when.
const PACKETS: &[(&str, &str, u32, u64)] = &[
    ("the last fragment", "450000191234000140110000c0000201c00002026279746573", 7, 0),
    ("the same in another VLAN", "450000191234000140110000c0000201c00002026279746573", 8, 1),
    ("the first one", "4500001c123420003f110000c0000201c0000202746869727465656e", 7, 2),
    ("a packet that is whole", "450000150000000040110000c0000201c000020278", 7, 3),
    (
        "a first fragment over IPv6, and padding",
        "6000000000102c4020010db800000000000000000000000120010db800000000000000000000000211000001\
         000000990035c0010010abcd0000",
        7,
        4,
    ),
    (
        "the last one",
        "6000000000102c4020010db800000000000000000000000120010db800000000000000000000000211000008\
         000000996f6e652074776f21",
        7,
        5,
    ),
    (
        "8 bytes of a TCP header",
        "6000000000102c4020010db800000000000000000000000120010db800000000000000000000000206000001\
         000000980035c00100000001",
        7,
        6,
    ),
    ("another datagram", "4500001c432120003f110000c0000201c0000202746869727465656e", 7, 7),
    (
        "it takes the slot of the oldest",
        "4500001c999920003f110000c0000201c0000202746869727465656e",
        7,
        8,
    ),
    ("a length of 9", "4500001d999920013f110000c0000201c0000202746869727465656e21", 7, 9),
    ("fewer bytes than its length", "4500001d9999", 7, 10),
    (
        "other bytes at the same place",
        "4500001c999920003f110000c0000201c00002026e696e657465656e",
        7,
        11,
    ),
    ("after the timeout", "4500001c999920003f110000c0000201c0000202746869727465656e", 7, 68),
];

const SLOT_COUNT: usize = 2;

// The bytes that hex digits spell.
fn bytes_of(digits: &str) -> Vec<u8> {
    (0..digits.len()).step_by(2).map(|i| u8::from_str_radix(&digits[i..i + 2], 16).unwrap()).collect()
}

fn digits_of(bytes: &[u8]) -> String {
    bytes.iter().map(|byte| format!("{byte:02x}")).collect()
}

fn print_error(error: &DefragError) {
    let mut text = [0; ERROR_TEXT_SIZE];
    let len = unsafe { etherparse_defrag_error_text(error, text.as_mut_ptr(), text.len()) };
    let text = std::str::from_utf8(&text[..len]).unwrap();
    println!("  error {}, offset {}, len {}: {text} ({len})", error.kind, error.offset, error.len);
}

fn one_datagram() {
    let mut memory = vec![0; BUF_MEMORY];
    let mut state = DefragBufState { words: [0; 8] };
    unsafe { etherparse_defrag_buf_new(&mut state, memory.as_mut_ptr(), memory.len()) };
    let mut buf = DefragBuf { state: &mut state };
    for &(offset, more_fragments, payload) in FRAGMENTS {
        let mut out = [0; 128];
        let (error, len, known) = unsafe {
            (
                etherparse_defrag_buf_add(&mut buf, offset, more_fragments, payload.as_ptr(), payload.len()),
                etherparse_defrag_buf_datagram(&mut buf, out.as_mut_ptr(), out.len()),
                etherparse_defrag_buf_datagram_state(&mut buf),
            )
        };
        println!("offset {offset}, \"{payload}\"");
        print_error(&error);
        let datagram = std::str::from_utf8(&out[..len]).unwrap();
        println!("  {}, {len} bytes: {datagram}", STATES[known as usize]);
    }
    let known = unsafe {
        etherparse_defrag_buf_clear(&mut buf);
        etherparse_defrag_buf_datagram_state(&mut buf)
    };
    println!("cleared: {}", STATES[known as usize]);
}

fn print_id(id: &FragId) {
    println!(
        "  gave up version {}, protocol {}, identification {:x}, VLAN {} and {}, from {} to {}",
        id.version,
        id.protocol,
        id.identification,
        id.outer_vlan_id,
        id.inner_vlan_id,
        digits_of(&id.source),
        digits_of(&id.destination)
    );
}

fn pool_of_packets() {
    let mut memory = vec![vec![0; SLOT_MEMORY]; SLOT_COUNT];
    let mut slots: Vec<DefragSlot> = (0..SLOT_COUNT).map(|_| DefragSlot { words: [0; 21] }).collect();
    for (slot, memory) in slots.iter_mut().zip(&mut memory) {
        unsafe { etherparse_defrag_slot_new(slot, memory.as_mut_ptr(), memory.len()) };
    }
    let mut state = DefragPoolState { words: [0; 3] };
    unsafe { etherparse_defrag_pool_new(&mut state, slots.as_mut_ptr(), slots.len(), TIMEOUT_SECONDS) };
    let mut pool = DefragPool { state: &mut state };
    let mut out = vec![0; PACKET_SIZE];
    for &(name, digits, vlan_id, now) in PACKETS {
        let packet = bytes_of(digits);
        let added = unsafe {
            etherparse_defrag_pool_add_packet(&mut pool, packet.as_ptr(), packet.len(), vlan_id, NO_VLAN, now)
        };
        println!("{name}\n  slot {}, {}", added.slot, STATES[added.state as usize]);
        if added.error.kind != OK {
            print_error(&added.error);
        }
        if added.given_up.version != 0 {
            print_id(&added.given_up);
        }
        if added.state == COMPLETE {
            let written = unsafe {
                etherparse_defrag_pool_write_packet(&mut pool, added.slot, out.as_mut_ptr(), out.len())
            };
            println!(
                "  a packet of {} bytes, error {}: {}",
                written.len,
                written.error.kind,
                digits_of(&out[..written.len])
            );
            unsafe { etherparse_defrag_pool_release(&mut pool, added.slot) };
        }
    }
}

fn main() {
    one_datagram();
    pool_of_packets();
}
