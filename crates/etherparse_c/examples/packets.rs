//! Takes frames apart, each in one call and all of a link type in one, and prints what it finds.

#[path = "../include/etherparse.rs"]
mod etherparse;

use etherparse::*;

// Frames of a link type, as hex digits.
const FRAMES: &[(&str, u32, &str)] = &[
    (
        "two tags, options, UDP, padding",
        1,
        "02000000000202000000000188a8b12381004abc08004600002400000000401163c60a0000010a0000020101\
         010012345678000c7f2101020304000000",
    ),
    (
        "first fragment over IPv6, truncated",
        276,
        "86dd000000000003000104060200000000010000600000000030004020010db8000000000000000000000001\
         20010db80000000000000000000000022c000104000000000600000111121314234567890000000100000002\
         6012100000000000020405b4070707",
    ),
    (
        "later fragment, loopback",
        0,
        "02000000450000249abc20424011abc80a0000010a000002000102030405060708090a0b0c0d0e0f",
    ),
    (
        "ICMPv6, wrong checksum",
        101,
        "6000000000093a4020010db800000000000000000000000120010db800000000000000000000000281070000\
         0102030405",
    ),
    (
        "ICMP, one tag, Linux cooked capture",
        113,
        "00040001000602000000000100008100d00708004500001e00000000400166dd0a0000010a0000020301b7fd\
         000000004501",
    ),
    (
        "TCP of six bytes",
        1,
        "02000000000202000000000108004500001a00000000400666dd0a0000010a000002112233440000",
    ),
    (
        "total length 19",
        1,
        "02000000000202000000000108004500001300000000401166d70a0000010a00000201",
    ),
    (
        "ESP of 79 bytes, two of which are there",
        1,
        "02000000000202000000000108004500006300000000403266670a0000010a0000020102",
    ),
    (
        "cut within a tag",
        1,
        "02000000000202000000000181000005",
    ),
    (
        "cut within the link header",
        1,
        "020000000002020000",
    ),
    (
        "version 5",
        101,
        "5500",
    ),
    (
        "TCP with a data offset of 4",
        1,
        "02000000000202000000000108004500002800000000400666ce0a0000010a00000200010002000000010000\
         00024000000000000000",
    ),
    (
        "link type 999",
        999,
        "010203",
    ),
    (
        "UDP without a checksum",
        1,
        "02000000000202000000000108004500001d00000000401166ce0a0000010a000002003504000009000078",
    ),
    (
        "no next header",
        1,
        "02000000000202000000000186dd6000000000003b4020010db800000000000000000000000120010db80000\
         00000000000000000002",
    ),
    (
        "jumbogram",
        101,
        "600000000000004020010db800000000000000000000000120010db80000000000000000000000021100c204\
         00010008040000350000000001020304",
    ),
];

// The bytes that hex digits spell.
fn bytes_of(digits: &str) -> Vec<u8> {
    (0..digits.len())
        .step_by(2)
        .map(|place| u8::from_str_radix(&digits[place..place + 2], 16).expect("two hex digits"))
        .collect()
}

fn lax(link_type: u32, frame: &[u8]) -> Packet {
    let mut packet = Packet::default();
    // SAFETY: the pointer is to as many bytes.
    unsafe {
        etherparse_packet_lax_from_link_type(link_type, frame.as_ptr(), frame.len(), true, &mut packet)
    };
    packet
}

fn strict(link_type: u32, frame: &[u8]) -> Packet {
    let mut packet = Packet::default();
    // SAFETY: as above.
    unsafe {
        etherparse_packet_strict_from_link_type(link_type, frame.as_ptr(), frame.len(), true, &mut packet)
    };
    packet
}

fn text_of(error: &Error) -> String {
    let mut text = [0; ERROR_TEXT_SIZE];
    // SAFETY: the pointer is to as many bytes.
    let len = unsafe { etherparse_error_text(error, text.as_mut_ptr(), text.len()) };
    String::from_utf8(text[..len].to_vec()).expect("a text")
}

fn at(part: Part) -> String {
    format!("at {}+{}", part.offset, part.len)
}

fn tag(tag: VlanTag) -> String {
    format!("{}/{}/{}", tag.identifier, tag.priority, u8::from(tag.drop_eligible))
}

fn show(name: &str, packet: &Packet) {
    let Packet { link, ip, transport, stop, .. } = packet;
    println!("{name}");
    println!(
        "  link {} {}, tags {}: {} {}, family {}, type {} {:04x}, payload {}",
        link.kind,
        at(link.header),
        link.vlan_count,
        tag(link.outer_vlan),
        tag(link.inner_vlan),
        link.family,
        u8::from(link.has_ether_type),
        link.ether_type,
        at(link.payload)
    );
    println!(
        "  ip {} {}, extensions {}, payload {} {}, packet_len {}",
        ip.version,
        at(ip.header),
        at(ip.extensions),
        ip.upper,
        at(ip.payload),
        ip.packet_len
    );
    println!(
        "  fragment {}, later {}, more {}, identification {:x}, offset {}, truncated {}",
        u8::from(ip.is_fragment),
        u8::from(ip.is_later_fragment),
        u8::from(ip.more_fragments),
        ip.identification,
        ip.fragment_offset,
        u8::from(ip.is_truncated)
    );
    println!(
        "  transport {} {}, payload {}, ports {} {} {}, flags {:02x}, icmp {} {}",
        transport.kind,
        at(transport.header),
        at(transport.payload),
        u8::from(transport.has_ports),
        transport.source_port,
        transport.destination_port,
        transport.tcp_flags,
        transport.icmp_type,
        transport.icmp_code
    );
    println!(
        "  checksums {} {}, stop {} {} {} {} {} {} {}: {}",
        packet.header_checksum,
        packet.payload_checksum,
        stop.kind,
        stop.number,
        stop.layer,
        stop.required_len,
        stop.len,
        stop.layer_start_offset,
        stop.limit,
        text_of(stop)
    );
}

fn main() {
    let frames: Vec<(&str, u32, Vec<u8>)> =
        FRAMES.iter().map(|&(name, link_type, digits)| (name, link_type, bytes_of(digits))).collect();
    for (name, link_type, bytes) in &frames {
        show(&format!("{name}, lax"), &lax(*link_type, bytes));
        show(&format!("{name}, strict"), &strict(*link_type, bytes));
    }

    // All Ethernet frames in one call, with room for one answer less: each answer as above.
    let ethernet: Vec<&[u8]> = frames
        .iter()
        .filter(|(_, link_type, _)| *link_type == LINKTYPE_ETHERNET)
        .map(|(_, _, bytes)| bytes.as_slice())
        .collect();
    let listed: Vec<Frame> = ethernet
        .iter()
        .map(|bytes| Frame { at: bytes.as_ptr(), len: bytes.len(), original_len: 1500 })
        .collect();
    let kept = Packet { payload_checksum: 7, ..Packet::default() };
    let mut answers = vec![kept; listed.len()];
    // SAFETY: each pointer is to as many bytes, frames and answers.
    let done = unsafe {
        etherparse_packet_lax_batch(
            LINKTYPE_ETHERNET,
            listed.as_ptr(),
            listed.len(),
            true,
            answers.as_mut_ptr(),
            listed.len() - 1,
        )
    };
    let same = (0..done).filter(|&i| answers[i] == lax(LINKTYPE_ETHERNET, ethernet[i])).count();
    println!(
        "{} frames in one call, {done} answers, {same} as above, the next kept {}",
        listed.len(),
        u8::from(answers[done] == kept)
    );

    // What an EtherType names, and without its last byte.
    let bytes = &frames[0].2[22..58];
    let mut after = Packet::default();
    // SAFETY: as above.
    unsafe { etherparse_packet_lax_from_ether_type(0x0800, bytes.as_ptr(), 36, false, &mut after) };
    show("after an EtherType, lax", &after);
    // SAFETY: as above.
    unsafe { etherparse_packet_strict_from_ether_type(0x0800, bytes.as_ptr(), 35, true, &mut after) };
    show("after an EtherType, cut, strict", &after);
}
