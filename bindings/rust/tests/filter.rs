//! Filters: which frames an expression chooses, and why a text is none. The frames have no tag,
//! extension header or padding; libpcap 1.10.3 chooses the same of them. Places are counted in the
//! text.

mod common;

use common::bytes_of;
use etherparse_proved::filter::{Expected, Filter, FilterError, Frame, Operator};
use etherparse_proved::LinkType;

// From 10.0.0.1 port 1024 to 10.0.0.2 port 53, UDP.
const QUESTION: &str = "020000000002020000000001 0800 4500001e00004000401126cd0a0000010a000002\
    04000035000a7f396869";
// From 192.0.2.1 port 49152 to 192.0.2.2 port 80, TCP with SYN.
const SEGMENT: &str = "020000000002020000000001 0800 45000028000040004006b6ccc0000201c0000202\
    c00000500000000100000000500220004b8d0000";
// Who has 10.0.0.3, asks 10.0.0.1.
const ARP: &str = "020000000002020000000001 0806 00010800060400010200000000010a000001\
    0000000000000a000003";
// From 2001:db8::1 to 2001:db8::2, ICMPv6.
const ECHO: &str = "020000000002020000000001 86dd 6000000000083a40\
    20010db800000000000000000000000120010db8000000000000000000000002 8000244500010002";
// From 10.0.0.1 to 10.0.0.2, UDP, a fragment at 24.
const FRAGMENT: &str = "020000000002020000000001 0800 4500001c00070003401166c50a0000010a000002\
    0102030405060708";

fn frames() -> Vec<Vec<u8>> {
    [QUESTION, SEGMENT, ARP, ECHO, FRAGMENT]
        .map(bytes_of)
        .to_vec()
}

// An expression, and a digit for each frame: 1 if it chooses the frame.
const CHOICES: [(&str, &str); 18] = [
    ("tcp port 80 or udp port 53", "11000"),
    ("udp", "10001"),
    ("port 53", "10000"),
    ("not port 53", "01111"),
    ("src net 10.0.0.0/8", "10101"),
    ("dst host 10.0.0.2", "10001"),
    ("host 10.0.0.1", "10101"),
    ("tcp[tcpflags] & tcp-syn != 0", "01000"),
    ("icmp6", "00010"),
    ("arp or ip6", "00110"),
    ("not ip", "00110"),
    ("ip[6:2] & 0x1fff != 0", "00001"),
    ("less 43", "00101"),
    ("greater 54", "01010"),
    ("ether src 02:00:00:00:00:01", "11111"),
    ("ether src 02:00:00:00:00:02", "00000"),
    ("portrange 1024-1030", "10000"),
    ("(arp or icmp6) and not host 10.0.0.3", "00010"),
];

#[test]
fn frames_are_chosen_one_by_one_and_in_a_batch() {
    let bytes = frames();
    let listed: Vec<Frame> = bytes.iter().map(|frame| Frame::new(frame)).collect();
    for (expression, chosen) in CHOICES {
        let mut filter = Filter::from_text(expression).unwrap();
        let expected: Vec<bool> = chosen.bytes().map(|digit| digit == b'1').collect();
        let one_by_one = bytes
            .iter()
            .map(|frame| filter.matches_frame(LinkType::ETHERNET, frame, frame.len()));
        assert_eq!(one_by_one.collect::<Vec<_>>(), expected, "{expression}");
        let mut clone = Box::new(filter.clone());
        let mut answers = [true; 6];
        let count = clone.matches_frames(LinkType::ETHERNET, &listed, &mut answers);
        assert_eq!((count, &answers[..5]), (5, &expected[..]), "{expression}");
        assert!(answers[5], "an answer after the last frame is changed");
    }
}

#[test]
fn the_length_is_that_on_the_wire() {
    let question = bytes_of(QUESTION);
    let mut filter = Filter::from_text("udp and less 1514").unwrap();
    let frames = [1514, 1515].map(|len| Frame::truncated(&question[..40], len));
    let mut answers = [false, true, true];
    assert_eq!(
        filter.matches_frames(LinkType::ETHERNET, &frames, &mut answers),
        2
    );
    assert_eq!(answers, [true, false, true]);
    let one_by_one = frames
        .map(|frame| filter.matches_frame(LinkType::ETHERNET, frame.bytes(), frame.original_len()));
    assert_eq!(one_by_one, [true, false]);
    assert_eq!(
        filter.matches_frames(LinkType::ETHERNET, &frames[1..], &mut answers[..0]),
        0
    );
    assert_eq!(
        filter.matches_frames(LinkType::ETHERNET, &[], &mut answers),
        0
    );
    assert_eq!(answers, [true, false, true]);
    assert_eq!(
        (frames[1].bytes(), frames[1].original_len()),
        (&question[..40], 1515)
    );
    let shown = format!("{:?}", Frame::truncated(&[7], 9));
    assert_eq!(shown, "Frame { bytes: [7], original_len: 9 }");
}

#[test]
fn frames_of_other_link_types_and_cut_ones() {
    let question = bytes_of(QUESTION);
    let mut udp = Filter::from_text("udp").unwrap();
    let mut not_udp = Filter::from_text("not udp").unwrap();
    let mut both = |link_type, frame: &[u8]| {
        (
            udp.matches_frame(link_type, frame, frame.len()),
            not_udp.matches_frame(link_type, frame, frame.len()),
        )
    };
    assert_eq!(both(LinkType::RAW, &question[14..]), (true, false));
    assert_eq!(both(LinkType::ETHERNET, &question[..13]), (false, true));
    assert_eq!(both(LinkType::ETHERNET, &[]), (false, true));
    assert_eq!(both(LinkType(999), &question), (false, false));
}

#[test]
fn threads_have_a_clone_each() {
    let bytes = frames();
    let listed: Vec<Frame> = bytes.iter().map(|frame| Frame::new(frame)).collect();
    let filter = Filter::from_text("not port 53").unwrap();
    let count = || {
        let mut filter = filter.clone();
        let mut answers = [false; 5];
        filter.matches_frames(LinkType::ETHERNET, &listed, &mut answers);
        answers
    };
    let found = std::thread::scope(|scope| {
        let threads = [scope.spawn(count), scope.spawn(count)];
        threads.map(|thread| thread.join().unwrap())
    });
    assert_eq!(found, [[false, true, true, true, true]; 2]);
}

// The error of a text, whose place and text are these.
fn assert_refused(text: impl AsRef<[u8]>, error: FilterError, place: usize, shown: &str) {
    let found = Filter::from_text(text).unwrap_err();
    assert_eq!((found, found.place()), (error, place));
    assert_eq!(found.to_string(), shown);
}

#[test]
fn refusals_have_their_texts() {
    assert_refused(
        "tcp prot 80",
        FilterError::Unexpected { place: 4, expected: Expected::AfterTransport },
        4,
        "Expression Error: The word at byte 4 cannot stand there: expected `src`, `dst`, `port`, `portrange`, `[` or an operator.",
    );
    assert_refused(
        "host 10.0.0.1 and port 65536",
        FilterError::Unexpected { place: 23, expected: Expected::Port },
        23,
        "Expression Error: The word at byte 23 cannot stand there: expected a port, such as `80` or `http`.",
    );
    assert_refused(
        b"host \xff",
        FilterError::Unexpected { place: 5, expected: Expected::Address },
        5,
        "Expression Error: The word at byte 5 cannot stand there: expected an address, such as `10.0.0.1` or `fe80::1`.",
    );
    assert_refused(
        "udp or tcp and port 22",
        FilterError::Mixed { place: 11, operator: Operator::And },
        11,
        "Expression Error: `and` and `or` stand together at byte 11: parentheses have to say which comes first, as in `(a or b) and c` or `a or (b and c)`.",
    );
    assert_refused(
        "udp and tcp || arp",
        FilterError::Mixed { place: 12, operator: Operator::Or },
        12,
        "Expression Error: `and` and `or` stand together at byte 12: parentheses have to say which comes first, as in `(a and b) or c` or `a and (b or c)`.",
    );
    assert_refused(
        "ip or mpls",
        FilterError::Unsupported { place: 6 },
        6,
        "Expression Error: The word of pcap-filter(7) at byte 6 is not part of the language.",
    );
    assert_refused(
        "not (tcp or arp",
        FilterError::Incomplete {
            place: 15,
            expected: Expected::OrClose,
        },
        15,
        "Expression Error: It ends where more words have to follow: expected `or` or `)`.",
    );
    assert_refused(
        "",
        FilterError::Incomplete { place: 0, expected: Expected::Operand },
        0,
        "Expression Error: It ends where more words have to follow: expected `not`, `(` or a primitive, such as `tcp` or `host`.",
    );
    assert_refused(
        "not ".repeat(64) + "arp",
        FilterError::TooLong { place: 256 },
        256,
        "Expression Error: It has more than 64 words: the first beyond them is at byte 256.",
    );
    assert!(Filter::from_text("not ".repeat(Filter::MAX_WORDS - 1) + "arp").is_ok());
}

// A text that ends where each of these could follow, or has a `)` there, and the words that the error
// names.
const ENDS: [(&str, Expected, &str); 31] = [
    ("icmp )", Expected::AndOr, "`and` or `or`"),
    ("icmp and port 1 )", Expected::And, "`and`"),
    ("icmp or port 1 )", Expected::Or, "`or`"),
    (
        "ip6 )",
        Expected::AfterIp,
        "`src`, `dst`, `host`, `net`, `proto`, `multicast`, `[` or an operator",
    ),
    (
        "rarp )",
        Expected::AfterArp,
        "`src`, `dst`, `host`, `net`, `[` or an operator",
    ),
    (
        "sctp )",
        Expected::AfterTransport,
        "`src`, `dst`, `port`, `portrange`, `[` or an operator",
    ),
    (
        "vlan )",
        Expected::AfterVlan,
        "the identifier of a VLAN, such as `5`, or an operator",
    ),
    (
        "net 10.0.0.0 )",
        Expected::AfterAddress,
        "`mask` or an operator",
    ),
    ("(arp", Expected::AndOrClose, "`and`, `or` or `)`"),
    ("(arp and icmp", Expected::AndClose, "`and` or `)`"),
    (
        "src",
        Expected::AfterDirection,
        "`host`, `net`, `port`, `portrange` or an address, such as `10.0.0.1`",
    ),
    (
        "tcp src",
        Expected::AfterTransportDirection,
        "`port` or `portrange`",
    ),
    (
        "ether",
        Expected::AfterEther,
        "`src`, `dst`, `host`, `proto`, `broadcast`, `multicast` or `[`",
    ),
    ("src or", Expected::Destination, "`dst`"),
    (
        "ip host",
        Expected::Ipv4Address,
        "an IPv4 address, such as `10.0.0.1`",
    ),
    (
        "ip6 host",
        Expected::Ipv6Address,
        "an IPv6 address, such as `fe80::1`",
    ),
    (
        "net",
        Expected::Network,
        "a network, such as `10.0.0.0/8` or `fe80::/10`",
    ),
    (
        "ip net",
        Expected::Ipv4Network,
        "an IPv4 network, such as `10.0.0.0/8`",
    ),
    (
        "ip6 net",
        Expected::Ipv6Network,
        "an IPv6 network, such as `fe80::/10`",
    ),
    (
        "net 10.0.0.0 mask",
        Expected::Mask,
        "a mask with all bits of the address, such as `255.255.255.255`",
    ),
    (
        "portrange",
        Expected::PortRange,
        "a range of ports, such as `6000-6063`",
    ),
    (
        "ip proto",
        Expected::Protocol,
        "a protocol that IP carries, such as `6` or `\\tcp`",
    ),
    (
        "ether dst",
        Expected::EthernetAddress,
        "an Ethernet address, such as `02:00:00:00:00:01`",
    ),
    (
        "ether proto",
        Expected::EtherType,
        "an EtherType, such as `0x0806` or `\\arp`",
    ),
    (
        "ip[",
        Expected::Place,
        "a place, such as `13` or `tcpflags`, or one with a size, such as `2:4`",
    ),
    ("ip[0", Expected::CloseBracket, "`]`"),
    (
        "ip[0]",
        Expected::Relation,
        "a relation, such as `=`, `!=` or `<`",
    ),
    ("less", Expected::Number, "a number, such as `64`"),
    ("first", Expected::Fragment, "`fragment`"),
    ("checksum", Expected::Wrong, "`wrong`"),
    ("tcp[tcpflags] & (tcp-syn", Expected::Bits, "`|` or `)`"),
];

#[test]
fn what_could_follow_has_its_words() {
    for (text, expected, words) in ENDS {
        let (place, error, shown) = if text.ends_with(" )") {
            let place = text.len() - 1;
            let shown = format!("The word at byte {place} cannot stand there");
            (place, FilterError::Unexpected { place, expected }, shown)
        } else {
            let place = text.len();
            let shown = "It ends where more words have to follow".to_string();
            (place, FilterError::Incomplete { place, expected }, shown)
        };
        let shown = format!("Expression Error: {shown}: expected {words}.");
        assert_refused(text, error, place, &shown);
    }
}
