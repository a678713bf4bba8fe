//! A translator: packets that leave a network get its public address and a port of it, and a code
//! point, all in place. It prints each packet as it goes on, or why it does not.

#[path = "../include/etherparse_rewriting.rs"]
mod etherparse_rewriting;

use etherparse_rewriting::*;

// Packets of IP, as hex digits.
const PACKETS: &[(&str, &str)] = &[
    (
        "UDP over IPv4, with an option",
        "46b9002400000000401162f3c0a80001c0a800c79404000004000035000c91ae74657374",
    ),
    (
        "TCP over IPv4",
        "4500002b000000004006f8b4c0a80001c0a800c70400005001020304050607085018200034ea0000616263",
    ),
    (
        "UDP without a checksum",
        "45000020000000004011f8b4c0a80001c0a800c704000035000c000074657374",
    ),
    (
        "later fragment",
        "4500001c123420014011c683c0a80001c0a800c70102030405060708",
    ),
    (
        "ICMP",
        "4500001e000000004001f8c6c0a80001c0a800c708008468123400016162",
    ),
    (
        "TCP over IPv6",
        "6b9123450017064020010db800000000000000000000000120010db800000000000000000000000204000050\
         0102030405060708501820005b8e0000616263",
    ),
    (
        "first fragment that ends within TCP",
        "4500001c000020004006e8c3c0a80001c0a800c70400005001020304",
    ),
    (
        "truncated",
        "45000020000000004011f8b4c0a80001c0a800c704000035000c0000746573",
    ),
];

// The bytes that hex digits spell.
fn bytes_of(digits: &str) -> Vec<u8> {
    (0..digits.len())
        .step_by(2)
        .map(|place| u8::from_str_radix(&digits[place..place + 2], 16).expect("two hex digits"))
        .collect()
}

// Gives a packet the public address and a port, if it has these, and marks it; the number of the
// error, or 0, and how far the change of the address reaches.
fn send_out(packet: &mut [u8]) -> (u32, &'static str) {
    let reaches = [
        "no address",
        "address and upper layer",
        "address alone, later fragment",
        "address alone, other protocol",
    ];
    let (at, len) = (packet.as_mut_ptr(), packet.len());
    // SAFETY: the pointer and the length are those of the slice, which nothing else borrows.
    unsafe {
        let answer = etherparse_set_source_ipv4(at, len, &[198, 51, 100, 7]);
        let mut error = answer.error;
        if error == OTHER_VERSION {
            error = OK;
        }
        if error == OK {
            error = etherparse_set_source_port(at, len, 40000);
        }
        if error == LATER_FRAGMENT || error == OTHER_PROTOCOL {
            error = OK;
        }
        if error == OK {
            error = etherparse_set_dscp(at, len, 10);
        }
        if error == OK {
            error = etherparse_set_ecn(at, len, 3);
        }
        (error, reaches[answer.reach as usize])
    }
}

// The text of an error.
fn text_of(error: u32) -> String {
    let mut text = [0; ERROR_TEXT_SIZE];
    // SAFETY: the pointer and the length are those of the array.
    let len = unsafe { etherparse_rewriting_error_text(error, text.as_mut_ptr(), text.len()) };
    String::from_utf8_lossy(&text[..len]).into_owned()
}

fn main() {
    for (name, digits) in PACKETS {
        let mut packet = bytes_of(digits);
        let (error, reach) = send_out(&mut packet);
        if error != OK {
            println!("{name}: error {error}: {}", text_of(error));
            continue;
        }
        let digits: String = packet.iter().map(|byte| format!("{byte:02x}")).collect();
        println!("{name}: {reach}\n  {digits}");
    }

    // A datagram of one's own, whose checksum is made.
    let mut datagram = *b"\x9c\x40\x14\xe9\x00\x0c\x00\x00test";
    // SAFETY: the pointer and the length are those of the array.
    let error = unsafe {
        etherparse_set_checksum_ipv4(
            &[198, 51, 100, 7],
            &[10, 0, 0, 2],
            17,
            datagram.as_mut_ptr(),
            datagram.len(),
        )
    };
    println!(
        "a datagram of one's own: error {error}, checksum {:02x}{:02x}",
        datagram[6], datagram[7]
    );
}
