//! Takes frames apart: whole ones, truncated ones and damaged ones, whose fields all differ. What is
//! expected stands in their bytes, where the standards say.

mod common;

use common::{bytes_of, cause, len_error};
use etherparse_proved::err::packet::SliceError;
use etherparse_proved::err::{ip, ipv4, tcp, Layer, LenError};
use etherparse_proved::{Absence, EtherType, Fragment, IpNumber, LaxSlicedPacket, LenSource};
use etherparse_proved::{LinkSlice, LinkType, NetSlice, PacketBuffer, SlicedPacket};
use etherparse_proved::{TransportSlice, Verdict, VlanSlice};

// Two VLAN tags, IPv4 with an option, UDP, and three bytes of padding.
const TAGGED: &str =
    "02000000000402000000000388a8b12381004abc08004600002400000000401163c60a0000010a\
    0000020101010012345678000c7f2101020304000000";
// Linux cooked capture of version 2, and five bytes less than the first fragment of a TCP segment
// over IPv6.
const FIRST_FRAGMENT: &str =
    "86dd000000000003000104060200000000010000600000000030004020010db80000000000\
    0000000000000120010db80000000000000000000000022c00010400000000060000011112131423456789000000\
    01000000026012100000000000020405b4070707";
// Loopback, and a later fragment of UDP over IPv4.
const LATER_FRAGMENT: &str =
    "02000000450000249abc20424011abc80a0000010a000002000102030405060708090a0b0c0d0e0f";
// Linux cooked capture, a VLAN tag, and ICMP.
const ICMP: &str =
    "00040001000602000000000100008100d00708004500001e00000000400166dd0a0000010a000002\
    0301b7fd000000004501";
// An IPv6 packet with ICMPv6 whose checksum is wrong.
const ICMPV6: &str =
    "6000000000093a4020010db800000000000000000000000120010db8000000000000000000000002\
    810700000102030405";
// TCP over IPv4: URG, PSH and SYN, four bytes of options, two of data.
const TCP: &str =
    "02000000000402000000000308004500002e00000000400666c80a0000010a0000020101020203040506\
    0708090a602a0b0c0d0e0f10020405061112";

// The hop-by-hop options of a jumbogram, and 12 bytes of the UDP datagram after them.
const JUMBOGRAM: &str =
    "600000000000004020010db800000000000000000000000120010db8000000000000000000000002\
    1100c20400010008040000350000000001020304";

fn ethernet(payload: &str) -> Vec<u8> {
    bytes_of(&format!("020000000004020000000003{payload}"))
}

#[test]
fn tags_and_a_datagram() {
    let frame = bytes_of(TAGGED);
    let packet = SlicedPacket::from_ethernet(&frame).unwrap();
    let Some(LinkSlice::Ethernet2(link)) = packet.link else {
        panic!("no Ethernet")
    };
    assert_eq!(link.destination(), [2, 0, 0, 0, 0, 4]);
    assert_eq!(link.source(), [2, 0, 0, 0, 0, 3]);
    assert_eq!(link.ether_type(), EtherType::PROVIDER_BRIDGING);
    assert_eq!(
        (link.slice(), link.header_slice()),
        (&frame[..], &frame[..14])
    );
    assert_eq!(link.payload().payload, &frame[14..]);
    let Some(VlanSlice::DoubleVlan(tags)) = packet.vlan() else {
        panic!("no two tags")
    };
    assert_eq!(tags.outer.vlan_identifier().value(), 0x123);
    assert_eq!(tags.outer.priority_code_point().value(), 5);
    assert!(tags.outer.drop_eligible_indicator());
    assert_eq!(tags.outer.ether_type(), EtherType::VLAN_TAGGED_FRAME);
    assert_eq!(tags.inner.vlan_identifier().value(), 0xabc);
    assert_eq!(tags.inner.priority_code_point().value(), 2);
    assert!(!tags.inner.drop_eligible_indicator());
    assert_eq!(tags.inner.header_slice(), &frame[18..22]);
    assert_eq!(
        packet.vlan().unwrap().payload(),
        packet.ether_payload().unwrap()
    );
    assert!(packet.vlan_ids().map(|id| id.value()).eq([0x123, 0xabc]));
    assert_eq!(tags.inner.vlan_identifier().to_string(), "2748");
    assert_eq!(u16::from(tags.inner.vlan_identifier()), 2748);
    assert_eq!(packet.payload_ether_type(), Some(EtherType::IPV4));
    assert_eq!(packet.payload, &frame[22..]);

    let Some(NetSlice::Ipv4(ip)) = packet.net else {
        panic!("no IPv4")
    };
    assert_eq!(packet.net.unwrap().ipv4_ref(), Some(&ip));
    assert_eq!(ip.header().slice(), &frame[22..46]);
    assert_eq!(ip.header().options(), [1, 1, 1, 0]);
    assert_eq!(packet.net.unwrap().source_addr().to_string(), "10.0.0.1");
    assert_eq!(
        packet.net.unwrap().destination_addr().to_string(),
        "10.0.0.2"
    );
    assert_eq!(
        (ip.packet_len(), ip.payload_ip_number()),
        (36, IpNumber::UDP)
    );
    let payload = packet.ip_payload().unwrap();
    assert_eq!(payload.payload, &frame[46..58]);
    assert!(!payload.fragmented && !payload.incomplete && !packet.is_ip_payload_fragmented());

    let Some(TransportSlice::Udp(udp)) = packet.transport else {
        panic!("no UDP")
    };
    assert_eq!(
        (udp.source_port(), udp.destination_port()),
        (0x1234, 0x5678)
    );
    assert_eq!((udp.length(), udp.checksum()), (12, 0x7f21));
    assert_eq!(
        (udp.header().slice(), udp.payload()),
        (&frame[46..54], &[1, 2, 3, 4][..])
    );
    assert_eq!(packet.ports(), Some((0x1234, 0x5678)));
    assert_eq!(packet.verdict(), Some(Verdict::Right));
    assert_eq!(packet.is_header_checksum_right(), Some(true));

    let after = SlicedPacket::from_ether_type(EtherType::PROVIDER_BRIDGING, &frame[14..]).unwrap();
    assert_eq!((after.link, after.vlan), (None, packet.vlan));
    assert_eq!((after.net, after.transport), (packet.net, packet.transport));
    let cut = LaxSlicedPacket::from_ether_type(EtherType::PROVIDER_BRIDGING, &frame[14..50]);
    assert!(cut.vlan_ids().eq(packet.vlan_ids()) && cut.stop.is_some());
    assert_eq!(cut.ports(), Some((0x1234, 0x5678)));
    let mut wrong = frame.clone();
    wrong[32] ^= 1;
    let wrong = SlicedPacket::from_ethernet(&wrong).unwrap();
    assert_eq!(wrong.is_header_checksum_right(), Some(false));
    let alone = SlicedPacket::from_ip(&frame[22..]).unwrap();
    assert_eq!(
        (alone.link, alone.vlan, alone.ether_type),
        (None, None, None)
    );
    assert_eq!((alone.net, alone.transport), (packet.net, packet.transport));
}

#[test]
fn a_truncated_first_fragment() {
    let frame = bytes_of(FIRST_FRAGMENT);
    let stop = len_error(Layer::Ipv6Packet, 88, 83, 20);
    assert_eq!(
        SlicedPacket::from_linux_sll2(&frame),
        Err(SliceError::Len(stop.clone()))
    );
    let lax = LaxSlicedPacket::from_linux_sll2(&frame).unwrap();
    assert_eq!(lax.stop, Some(stop.into()));
    let Some(LinkSlice::LinuxSll2(link)) = lax.link else {
        panic!("no cooked capture")
    };
    assert_eq!(
        (link.protocol_type(), link.interface_index()),
        (EtherType::IPV6, 3)
    );
    assert_eq!((link.arp_hardware_type(), link.packet_type()), (1, 4));
    assert_eq!(
        (link.sender_address(), link.slice()),
        (&[2, 0, 0, 0, 0, 1][..], &frame[..])
    );
    assert_eq!(link.payload().payload, &frame[20..]);
    let Some(NetSlice::Ipv6(ip)) = lax.net else {
        panic!("no IPv6")
    };
    assert_eq!(
        (ip.header().slice(), ip.extensions()),
        (&frame[20..60], &frame[60..76])
    );
    assert_eq!(lax.net.unwrap().source_addr().to_string(), "2001:db8::1");
    assert_eq!(
        lax.net.unwrap().destination_addr().to_string(),
        "2001:db8::2"
    );
    let fragment = Fragment {
        identification: 0x1112_1314,
        offset: 0,
        more_fragments: true,
    };
    assert_eq!(
        (ip.fragment(), lax.fragment()),
        (Some(fragment), Some(fragment))
    );
    let payload = lax.ip_payload().unwrap();
    assert_eq!(
        (payload.ip_number, payload.payload),
        (IpNumber::TCP, &frame[76..])
    );
    assert!(payload.fragmented && payload.incomplete && ip.is_payload_fragmented());
    assert!(lax.is_ip_payload_fragmented());
    let Some(TransportSlice::Tcp(tcp)) = lax.transport else {
        panic!("no TCP")
    };
    assert_eq!(
        (tcp.header_slice(), tcp.payload()),
        (&frame[76..100], &[7, 7, 7][..])
    );
    assert!(tcp.syn() && tcp.ack() && !tcp.fin());
    assert_eq!(lax.ports(), Some((0x2345, 0x6789)));
    assert_eq!(lax.verdict(), Some(Verdict::Absent(Absence::Incomplete)));
    assert_eq!(lax.is_header_checksum_right(), None);
    // An address of 20 bytes, of which 8 are there.
    let mut long = frame.clone();
    long[11] = 20;
    let Some(LinkSlice::LinuxSll2(link)) = LaxSlicedPacket::from_linux_sll2(&long).unwrap().link
    else {
        panic!("no cooked capture")
    };
    assert_eq!(link.sender_address(), &long[12..20]);
}

#[test]
fn a_later_fragment() {
    let frame = bytes_of(LATER_FRAGMENT);
    let packet = SlicedPacket::from_loopback(&frame).unwrap();
    assert_eq!(packet.link, Some(LinkSlice::Loopback { family: 2 }));
    assert_eq!(
        (packet.ether_payload(), packet.payload),
        (None, &frame[4..])
    );
    let place = Fragment {
        identification: 0x9abc,
        offset: 528,
        more_fragments: true,
    };
    assert_eq!((packet.fragment(), packet.transport), (Some(place), None));
    assert_eq!(packet.ports(), None);
    assert_eq!(packet.verdict(), Some(Verdict::Absent(Absence::Fragment)));
    assert!(!packet.ip_payload().unwrap().incomplete);
    let mut last = frame.clone();
    last[10] = 0;
    let place = SlicedPacket::from_loopback(&last).unwrap().fragment();
    assert!(place.is_some_and(|place| place.offset == 528 && !place.more_fragments));
    assert_eq!(
        LaxSlicedPacket::from_loopback(&frame).unwrap().packet,
        packet
    );
    let looped = SlicedPacket::from_link_type(LinkType::LOOP, &[0, 0, 0, 7, 1]).unwrap();
    assert_eq!(looped.link, Some(LinkSlice::Loopback { family: 7 }));
    assert_eq!((looped.net, looped.payload), (None, &[1][..]));
}

#[test]
fn icmp_of_both_versions() {
    let frame = bytes_of(ICMP);
    let packet = SlicedPacket::from_linux_sll(&frame).unwrap();
    let Some(LinkSlice::LinuxSll(link)) = packet.link else {
        panic!("no cooked capture")
    };
    assert_eq!((link.packet_type(), link.arp_hardware_type()), (4, 1));
    assert_eq!(
        (link.sender_address(), link.slice()),
        (&[2, 0, 0, 0, 0, 1][..], &frame[..])
    );
    assert_eq!(link.payload().ether_type, EtherType::VLAN_TAGGED_FRAME);
    assert_eq!(
        (link.header_slice(), link.payload_slice()),
        frame.split_at(16)
    );
    let mut long = frame.clone();
    long[5] = 20;
    let lax = LaxSlicedPacket::from_linux_sll(&long).unwrap();
    let Some(LinkSlice::LinuxSll(link)) = lax.link else {
        panic!("no cooked capture")
    };
    assert_eq!((link.sender_address(), lax.stop), (&long[6..14], None));
    assert!(packet.vlan_ids().map(|id| id.value()).eq([7]));
    let Some(TransportSlice::Icmpv4(icmp)) = packet.transport else {
        panic!("no ICMP")
    };
    assert_eq!(
        (icmp.type_u8(), icmp.code_u8(), icmp.checksum()),
        (3, 1, 0xb7fd)
    );
    assert_eq!(
        (icmp.slice(), icmp.body()),
        (&frame[40..50], &[0, 0, 0, 0, 0x45, 1][..])
    );
    assert_eq!(packet.verdict(), Some(Verdict::Right));

    let bytes = bytes_of(ICMPV6);
    let packet = SlicedPacket::from_ip(&bytes).unwrap();
    let Some(TransportSlice::Icmpv6(icmp)) = packet.transport else {
        panic!("no ICMPv6")
    };
    assert_eq!(
        (icmp.type_u8(), icmp.code_u8(), icmp.checksum()),
        (129, 7, 0)
    );
    assert_eq!(icmp.body(), [1, 2, 3, 4, 5]);
    assert!(packet.net.unwrap().ipv6_ref().is_some() && packet.net.unwrap().ipv4_ref().is_none());
    assert_eq!(packet.verdict(), Some(Verdict::Wrong));
    let texts = [
        Verdict::Right,
        Verdict::Wrong,
        Verdict::Absent(Absence::Incomplete),
    ];
    assert_eq!(
        texts.map(|verdict| verdict.to_string()),
        ["right", "wrong", "none"]
    );
    assert_eq!(format!("{:>6}", Verdict::Wrong), " wrong");
}

#[test]
fn a_tcp_header() {
    let frame = bytes_of(TCP);
    let packet = SlicedPacket::from_ethernet(&frame).unwrap();
    let Some(TransportSlice::Tcp(tcp)) = packet.transport else {
        panic!("no TCP")
    };
    assert_eq!(
        (tcp.source_port(), tcp.destination_port()),
        (0x0101, 0x0202)
    );
    assert_eq!(
        (tcp.sequence_number(), tcp.acknowledgment_number()),
        (0x0304_0506, 0x0708_090a)
    );
    assert_eq!((tcp.data_offset(), tcp.flags()), (6, 0b0010_1010));
    let flags = [
        tcp.cwr(),
        tcp.ece(),
        tcp.urg(),
        tcp.ack(),
        tcp.psh(),
        tcp.rst(),
        tcp.syn(),
        tcp.fin(),
    ];
    assert_eq!(flags, [false, false, true, false, true, false, true, false]);
    // The other flags, one by one: CWR, ECE, ACK, RST and FIN.
    let others = [0x80, 0x40, 0x10, 4, 1].map(|flags| {
        let mut frame = frame.clone();
        frame[47] = flags;
        let Some(TransportSlice::Tcp(tcp)) = SlicedPacket::from_ethernet(&frame).unwrap().transport
        else {
            panic!("no TCP")
        };
        [tcp.cwr(), tcp.ece(), tcp.ack(), tcp.rst(), tcp.fin()]
    });
    let one_each: [[bool; 5]; 5] = std::array::from_fn(|i| std::array::from_fn(|k| i == k));
    assert_eq!(others, one_each);
    assert_eq!(
        (tcp.window_size(), tcp.checksum(), tcp.urgent_pointer()),
        (0x0b0c, 0x0d0e, 0x0f10)
    );
    assert_eq!(
        (tcp.options(), tcp.payload()),
        (&[2, 4, 5, 6][..], &[0x11, 0x12][..])
    );
    assert_eq!(
        (tcp.header().slice(), tcp.slice()),
        (&frame[34..58], &frame[34..])
    );
}

#[test]
fn refusals_have_their_texts() {
    let short = len_error(Layer::LinkHeader, 14, 9, 0);
    assert_eq!(LaxSlicedPacket::from_ethernet(&[0; 9]), Err(short.clone()));
    let by = |len_source: LenSource, e: LenError| SliceError::Len(LenError { len_source, ..e });
    let by_total_len = |e: LenError| by(LenSource::Ipv4HeaderTotalLen, e);
    let ipv4 = |total_len: &str, protocol: &str, payload: &str| {
        ethernet(&format!(
            "08004500{total_len}0000000040{protocol}00000a0000010a000002{payload}"
        ))
    };
    let cases: [(Vec<u8>, SliceError, &str); 13] = [
        (vec![0; 9], short.into(), "Link Header Error: The header has at least 14 bytes, the frame 9."),
        (
            ethernet("81000005"),
            len_error(Layer::VlanHeader, 4, 2, 14).into(),
            "VLAN Header Error: Not enough data to decode 'VLAN header'. 4 byte(s) would be required, but only 2 byte(s) are available based on the slice length ('VLAN header' starts at overall parsed byte 14).",
        ),
        (
            ethernet("0800"),
            len_error(Layer::IpHeader, 1, 0, 14).into(),
            "IP Header Error: Not enough data to decode 'IP header'. 1 byte(s) would be required, but only 0 byte(s) are available based on the slice length ('IP header' starts at overall parsed byte 14).",
        ),
        (
            ethernet("080055"),
            SliceError::Ip(ip::HeaderError::UnsupportedIpVersion { version_number: 5 }),
            "IP Header Error: Version 5 is neither 4 nor 6.",
        ),
        (
            ethernet("080044000014000000004011000000000000000000000000"),
            SliceError::Ipv4(ipv4::HeaderError::HeaderLengthSmallerThanHeader { ihl: 4 }),
            "IPv4 Header Error: The 'internet header length' value '4' present in the IPv4 header is smaller than the minimum size of an IPv4 header. The minimum allowed value is '5'.",
        ),
        (
            ipv4("0013", "11", "01"),
            by_total_len(len_error(Layer::Ipv4Packet, 20, 19, 14)),
            "IPv4 Packet Error: Not enough data to decode 'IPv4 packet'. 20 byte(s) would be required, but only 19 byte(s) are available based on the length calculated from the IPv4 header 'total length' field ('IPv4 packet' starts at overall parsed byte 14).",
        ),
        (
            ipv4("0063", "32", "0102"),
            len_error(Layer::Ipv4Packet, 99, 22, 14).into(),
            "IPv4 Packet Error: Not enough data to decode 'IPv4 packet'. 99 byte(s) would be required, but only 22 byte(s) are available based on the slice length ('IPv4 packet' starts at overall parsed byte 14).",
        ),
        (
            ipv4("001b", "11", "01020304050607"),
            by_total_len(len_error(Layer::UdpHeader, 8, 7, 34)),
            "UDP Header Error: Not enough data to decode 'UDP header'. 8 byte(s) would be required, but only 7 byte(s) are available based on the length calculated from the IPv4 header 'total length' field ('UDP header' starts at overall parsed byte 34).",
        ),
        (
            ipv4("001a", "06", "112233440000"),
            by_total_len(len_error(Layer::TcpHeader, 20, 6, 34)),
            "TCP Header Error: Not enough data to decode 'TCP header'. 20 byte(s) would be required, but only 6 byte(s) are available based on the length calculated from the IPv4 header 'total length' field ('TCP header' starts at overall parsed byte 34).",
        ),
        (
            ipv4("0028", "06", "0001000200000001000000024000000000000000"),
            SliceError::Tcp(tcp::HeaderError::DataOffsetTooSmall { data_offset: 4 }),
            "TCP Header Error: Data offset 4 is less than 5.",
        ),
        (
            ipv4("0017", "01", "080000"),
            by_total_len(len_error(Layer::Icmpv4, 4, 3, 34)),
            "ICMP Packet Error: Not enough data to decode 'ICMP packet'. 4 byte(s) would be required, but only 3 byte(s) are available based on the length calculated from the IPv4 header 'total length' field ('ICMP packet' starts at overall parsed byte 34).",
        ),
        (
            ethernet("86dd6000000000033a400000000000000000000000000000000000000000000000000000000000000000\
                800000"),
            by(
                LenSource::Ipv6HeaderPayloadLen,
                len_error(Layer::Icmpv6, 4, 3, 54),
            ),
            "ICMPv6 Packet Error: Not enough data to decode 'ICMPv6 packet'. 4 byte(s) would be required, but only 3 byte(s) are available based on the length calculated from the IPv6 header 'payload length' field ('ICMPv6 packet' starts at overall parsed byte 54).",
        ),
        (
            ethernet("86dd6000000000083c400000000000000000000000000000000000000000000000000000000000000000\
                1101000000000000"),
            by(
                LenSource::Ipv6HeaderPayloadLen,
                len_error(Layer::Ipv6ExtHeader, 16, 8, 54),
            ),
            "IPv6 Extension Header Error: Not enough data to decode 'IPv6 extension header'. 16 byte(s) would be required, but only 8 byte(s) are available based on the length calculated from the IPv6 header 'payload length' field ('IPv6 extension header' starts at overall parsed byte 54).",
        ),
    ];
    for (frame, error, text) in cases {
        assert_eq!(SlicedPacket::from_ethernet(&frame), Err(error.clone()));
        let lax = LaxSlicedPacket::from_link_type(LinkType::ETHERNET, &frame);
        assert_eq!(
            (lax.stop.as_ref(), error.to_string().as_str()),
            (Some(&error), text)
        );
        assert_eq!(cause(&error).as_deref(), Some(text));
        if frame.len() >= 14 {
            assert_eq!(LaxSlicedPacket::from_ethernet(&frame), Ok(lax));
        }
    }
    let unread = SlicedPacket::from_link_type(LinkType(999), &[1]).unwrap_err();
    assert_eq!(unread, SliceError::LinkType { link_type: 999 });
    assert_eq!(
        unread.to_string(),
        "Link Type Error: Frames of link type 999 are not read."
    );
    let empty = SliceError::Len(len_error(Layer::IpHeader, 1, 0, 0));
    assert_eq!(LaxSlicedPacket::from_ip(&[]), Err(empty));
}

#[test]
fn a_total_length_of_zero_is_left_to_the_network_card() {
    let bytes = bytes_of("4500000000000000401166ea0a0000010a00000211112222000a00000304");
    assert!(SlicedPacket::from_ip(&bytes).is_err());
    let lax = LaxSlicedPacket::from_ip(&bytes).unwrap();
    assert_eq!(lax.ports(), Some((0x1111, 0x2222)));
    assert!(!lax.ip_payload().unwrap().incomplete);
    assert_eq!(lax.verdict(), Some(Verdict::Absent(Absence::Incomplete)));
}

#[test]
fn what_is_no_ip_packet_is_a_payload() {
    let frame = ethernet("0806000108000604");
    let packet = SlicedPacket::from_ethernet(&frame).unwrap();
    let payload = packet.ether_payload().unwrap();
    assert_eq!(
        (payload.ether_type, payload.payload),
        (EtherType::ARP, &frame[14..])
    );
    assert_eq!(
        (packet.net, packet.transport, packet.verdict()),
        (None, None, None)
    );
    // UDP without a checksum, and another protocol.
    let mut bytes = bytes_of("4500001d00000000401166ce0a0000010a000002003504000009000078");
    let verdict = |bytes: &[u8]| SlicedPacket::from_ip(bytes).unwrap().verdict();
    assert_eq!(verdict(&bytes), Some(Verdict::Absent(Absence::NotComputed)));
    bytes[9] = 50;
    assert_eq!(
        verdict(&bytes),
        Some(Verdict::Absent(Absence::OtherProtocol))
    );
    // Segment routing to 2001:db8::4, with one segment left and with none; and an unknown type.
    let front = "6000000000342b4020010db800000000000000000000000120010db800000000000000000000000";
    let list = "20010db800000000000000000000000420010db800000000000000000000000304000035000cb850";
    let routed = |header: &str| bytes_of(&format!("{front}2{header}{list}74657374"));
    let (left, none, unknown) = ("1104040101000000", "1104040001000000", "1104010100000000");
    assert_eq!(verdict(&routed(left)), Some(Verdict::Right));
    assert_eq!(verdict(&routed(none)), Some(Verdict::Wrong));
    let open = Some(Verdict::Absent(Absence::UnknownDestination));
    assert_eq!(verdict(&routed(unknown)), open);
    // Address, control, and the number of IPv4: PPP.
    let mut framed = vec![0xff, 3, 0, 0x21];
    framed.extend_from_slice(&bytes_of(TAGGED)[22..58]);
    let packet = SlicedPacket::from_link_type(LinkType(9), &framed).unwrap();
    assert_eq!(
        packet.link,
        Some(LinkSlice::Framed {
            slice: &framed[..4]
        })
    );
    assert_eq!(packet.ports(), Some((0x1234, 0x5678)));
}

#[test]
fn a_batch_gives_what_each_frame_gives() {
    let whole = [
        bytes_of(TAGGED),
        bytes_of(TCP),
        ethernet("0806000108000604"),
        ethernet("81000005"),
    ];
    let frames: Vec<&[u8]> = whole
        .iter()
        .flat_map(|frame| (0..=frame.len()).map(|len| &frame[..len]))
        .collect();
    let mut small = PacketBuffer::<1>::new();
    let mut large = PacketBuffer::<64>::default();
    for checksums in [false, true] {
        let one = LaxSlicedPacket::batch(
            LinkType::ETHERNET,
            frames.iter().copied(),
            checksums,
            &mut small,
        );
        let mut many = LaxSlicedPacket::batch(
            LinkType::ETHERNET,
            frames.iter().copied(),
            checksums,
            &mut large,
        );
        let mut left = frames.len();
        for (frame, (alone, among)) in frames.iter().zip(one.zip(many.by_ref())) {
            assert_eq!(among, alone);
            let (same, packet) = among;
            assert_eq!((same.as_ptr(), same.len()), (frame.as_ptr(), frame.len()));
            let lax = LaxSlicedPacket::from_link_type(LinkType::ETHERNET, frame);
            assert_eq!((&packet, packet.verdict()), (&lax, lax.verdict()));
            assert_eq!(
                packet.is_header_checksum_right(),
                lax.is_header_checksum_right()
            );
            match SlicedPacket::from_ethernet(frame) {
                Ok(strict) => assert_eq!((lax.packet, lax.stop), (strict, None)),
                Err(error) => assert_eq!(lax.stop, Some(error)),
            }
            left -= 1;
        }
        assert_eq!(
            (left, many.size_hint(), many.next()),
            (0, (0, Some(0)), None)
        );
    }
    let mut batch = LaxSlicedPacket::batch(LinkType(999), [frames[20]; 3], false, &mut large);
    assert_eq!(batch.size_hint(), (3, Some(3)));
    let (_, packet) = batch.next().unwrap();
    assert_eq!(packet.stop, Some(SliceError::LinkType { link_type: 999 }));
    assert_eq!(
        (packet.link, packet.net, batch.size_hint()),
        (None, None, (2, Some(2)))
    );
}

#[test]
fn a_jumbogram_has_the_parts_of_all_its_bytes() {
    let packet = bytes_of(JUMBOGRAM);
    let stop = LenError {
        len_source: LenSource::Ipv6HeaderPayloadLen,
        ..len_error(Layer::Ipv6ExtHeader, 2, 0, 40)
    };
    assert_eq!(
        SlicedPacket::from_ip(&packet),
        Err(SliceError::Len(stop.clone()))
    );
    let lax = LaxSlicedPacket::from_ip(&packet).unwrap();
    assert_eq!(lax.stop, Some(stop.into()));
    let Some(NetSlice::Ipv6(ip)) = lax.net else {
        panic!("no IPv6")
    };
    assert_eq!((ip.packet_len(), ip.extensions()), (0, &packet[40..48]));
    let payload = lax.ip_payload().unwrap();
    assert_eq!(
        (payload.ip_number, payload.payload, payload.incomplete),
        (IpNumber::UDP, &packet[48..], false)
    );
    assert_eq!(lax.ports(), Some((1024, 53)));
    assert_eq!(lax.verdict(), Some(Verdict::Absent(Absence::Incomplete)));
}

#[test]
fn a_buffer_outlives_its_frames() {
    fn is_shared_by_threads<T: Send + Sync>(_: &T) {}
    let mut buffer = PacketBuffer::<2>::new();
    for len in [32, 31] {
        let frame = bytes_of(TAGGED)[22..22 + len].to_vec();
        let frames = [frame.as_slice(); 3];
        let batch = LaxSlicedPacket::batch(LinkType::RAW, frames, true, &mut buffer);
        assert!(batch
            .map(|(_, packet)| packet.ports())
            .eq([Some((0x1234, 0x5678)); 3]));
    }
    is_shared_by_threads(&buffer);
}
