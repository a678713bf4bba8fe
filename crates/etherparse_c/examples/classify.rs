//! Sorts Ethernet frames by what they carry, many in one call, and counts those with a wrong
//! checksum and those that are cut or damaged.

#[path = "../include/etherparse.rs"]
mod etherparse;

use etherparse::*;

#[derive(Clone, Copy)]
enum Kind {
    TcpSyn,
    OtherTcp,
    Dns,
    OtherUdp,
    Icmp,
    Arp,
    OtherIp,
    Other,
}

const NAMES: [&str; 8] =
    ["TCP SYN", "other TCP", "DNS", "other UDP", "ICMP", "ARP", "other IP", "other frames"];

#[derive(Default)]
struct Counts {
    of_kind: [usize; NAMES.len()],
    wrong_checksum: usize,
    stopped: usize,
}

fn kind_of(packet: &Packet) -> Kind {
    let Packet { link, ip, transport, .. } = packet;
    match (ip.version, ip.upper) {
        (0, _) if link.has_ether_type && link.ether_type == 0x0806 => Kind::Arp,
        (0, _) => Kind::Other,
        // The flags are 0 if the header is not there whole. SYN is bit 1, ACK bit 4.
        (_, 6) if transport.tcp_flags & 0x12 == 0x02 => Kind::TcpSyn,
        (_, 6) => Kind::OtherTcp,
        (_, 17) if transport.source_port == 53 || transport.destination_port == 53 => Kind::Dns,
        (_, 17) => Kind::OtherUdp,
        (4, 1) | (6, 58) => Kind::Icmp,
        _ => Kind::OtherIp,
    }
}

impl Counts {
    // Adds frames to the counts. An answer has 224 bytes; here they stay in the processor's cache.
    fn add(&mut self, link_type: u32, frames: &[&[u8]]) {
        let mut packets = [Packet::default(); 12];
        for frames in frames.chunks(packets.len()) {
            let listed: Vec<Frame> = frames
                .iter()
                .map(|frame| Frame { at: frame.as_ptr(), len: frame.len(), original_len: frame.len() })
                .collect();
            // SAFETY: each pointer is to as many bytes, frames and packets.
            let done = unsafe {
                etherparse_packet_lax_batch(
                    link_type,
                    listed.as_ptr(),
                    listed.len(),
                    true,
                    packets.as_mut_ptr(),
                    packets.len(),
                )
            };
            for packet in &packets[..done] {
                self.of_kind[kind_of(packet) as usize] += 1;
                let verdicts = [packet.header_checksum, packet.payload_checksum];
                self.wrong_checksum += usize::from(verdicts.contains(&WRONG));
                self.stopped += usize::from(packet.stop.kind != OK);
            }
        }
    }
}

// Frames as hex digits.
const FRAMES: &[&str] = &[
    // a TCP SYN
    "0200000000020200000000010800450000281234000040067c60c0000201c6336407040100500000000100\
     000000500220009f540000",
    // its answer, a SYN with ACK
    "0200000000020200000000010800450000281234000040067c60c0000201c6336407005004010000000100\
     000001501220009f430000",
    // a TCP SYN over IPv6
    "02000000000202000000000186dd600000000014064020010db800000000000000000000000120010db800\
     0000000000000000000002040201bb0000000100000000500220002eb00000",
    // a DNS request
    "0200000000020200000000010800450000281234000040117c55c0000201c63364070400003500146286ab\
     cd01000001000000000000",
    // a DNS answer in VLAN 5, over IPv6
    "0200000000020200000000018100000586dd600000000014114020010db800000000000000000000000120\
     010db8000000000000000000000002003504000014f34dabcd01000001000000000000",
    // a DNS request with a wrong checksum
    "0200000000020200000000010800450000281234000040117c55c0000201c63364070400003500146287ab\
     cd01000001000000000000",
    // another UDP datagram
    "0200000000020200000000010800450000201234000040117c5dc0000201c63364070400007b000c2d5074\
     696d65",
    // a later fragment of UDP
    "02000000000202000000000108004500001c1234000140117c60c0000201c63364073132333435363738",
    // an echo request
    "0200000000020200000000010800450000201234000040017c6dc0000201c63364070800192c0001000270\
     696e67",
    // an echo request over IPv6
    "02000000000202000000000186dd60000000000c3a4020010db800000000000000000000000120010db800\
     0000000000000000000002800045700001000270696e67",
    // an echo request with a wrong checksum
    "0200000000020200000000010800450000201234000040017c6dc0000201c63364070800182c0001000270\
     696e67",
    // an ARP request
    "02000000000202000000000108060001080006040001020000000001c0000201000000000000c6336407",
    // GRE
    "02000000000202000000000108004500001812340000402f7c47c0000201c633640700000800",
    // ICMPv6 over IPv4, with a wrong header checksum
    "02000000000202000000000108004500001812340000403a7c47c0000201c633640700000800",
    // ICMP over IPv6
    "02000000000202000000000186dd600000000004014020010db800000000000000000000000120010db800\
     000000000000000000000208000000",
    // LLDP
    "02000000000202000000000188cc0207040200000000010000",
    // a TCP SYN that the capture cut
    "0200000000020200000000010800450000281234000040067c60c0000201c6336407040300190000000100\
     0000005002",
    // a frame that ends within its link header
    "020000000002020000000001",
];

// The bytes that hex digits spell.
fn bytes_of(digits: &str) -> Vec<u8> {
    (0..digits.len())
        .step_by(2)
        .map(|place| u8::from_str_radix(&digits[place..place + 2], 16).expect("two hex digits"))
        .collect()
}

fn main() {
    let bytes: Vec<Vec<u8>> = FRAMES.iter().map(|digits| bytes_of(digits)).collect();
    let frames: Vec<&[u8]> = bytes.iter().map(Vec::as_slice).collect();
    let mut counts = Counts::default();
    counts.add(LINKTYPE_ETHERNET, &frames);
    for (name, count) in NAMES.iter().zip(counts.of_kind) {
        println!("{name} {count}");
    }
    println!("wrong checksums {}\ncut or damaged {}", counts.wrong_checksum, counts.stopped);
}
