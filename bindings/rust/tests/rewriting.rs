//! Checksums that are made, and packets that are changed in place. The expected bytes are those of a
//! model that computes every checksum anew from the words of RFC 1071; scapy computes the same.

mod common;

use common::bytes_of;
use etherparse_proved::rewriting::*;
use etherparse_proved::{IpDscp, IpEcn, IpNumber, SlicedPacket, Verdict};

const INSIDE: [u8; 4] = [192, 168, 0, 1];
const SERVER: [u8; 4] = [192, 168, 0, 199];
const PUBLIC: [u8; 4] = [198, 51, 100, 7];
const OTHER_SERVER: [u8; 4] = [10, 0, 0, 2];

fn longer(fifth: u16, third: u16, last: u16) -> [u8; 16] {
    std::net::Ipv6Addr::new(0x2001, 0xdb8, fifth, third, 0, 0, 0, last).octets()
}

// Compares the checksum of a segment, which `calc` gives and `set` writes to a place; or the error of
// both, with which the segment stays.
fn assert_checksum(
    calc: impl Fn(&[u8]) -> Result<u16, ChecksumError>,
    set: impl Fn(&mut [u8]) -> Result<(), ChecksumError>,
    segment: &[u8],
    expected: Result<(u16, usize), ChecksumError>,
) {
    let mut after = segment.to_vec();
    if let Ok((checksum, place)) = expected {
        after[place..place + 2].copy_from_slice(&checksum.to_be_bytes());
    }
    assert_eq!(calc(segment), expected.map(|(checksum, _)| checksum));
    let mut changed = segment.to_vec();
    assert_eq!(set(&mut changed), expected.map(|_| ()));
    assert_eq!(changed, after);
}

fn assert_over_ipv4(
    protocol: IpNumber,
    digits: &str,
    expected: Result<(u16, usize), ChecksumError>,
) {
    assert_checksum(
        |segment| calc_checksum_ipv4(INSIDE, SERVER, protocol, segment),
        |segment| set_checksum_ipv4(INSIDE, SERVER, protocol, segment),
        &bytes_of(digits),
        expected,
    );
}

fn assert_over_ipv6(
    protocol: IpNumber,
    digits: &str,
    expected: Result<(u16, usize), ChecksumError>,
) {
    let (source, destination) = (longer(0, 0, 1), longer(0, 0, 2));
    assert_checksum(
        |segment| calc_checksum_ipv6(source, destination, protocol, segment),
        |segment| set_checksum_ipv6(source, destination, protocol, segment),
        &bytes_of(digits),
        expected,
    );
}

const DATAGRAM: &str = "04000035000cffff74657374";
const SEGMENT: &str = "04000050010203040506070850182000abcd0000616263";

#[test]
fn checksums_are_made() {
    assert_over_ipv4(IpNumber::UDP, DATAGRAM, Ok((0x91ae, 6)));
    assert_over_ipv4(IpNumber::TCP, SEGMENT, Ok((0x34ea, 16)));
    assert_over_ipv4(IpNumber::ICMP, "08001111123400016162", Ok((0x8468, 2)));
    assert_over_ipv6(IpNumber::UDP, DATAGRAM, Ok((0xb852, 6)));
    assert_over_ipv6(IpNumber::TCP, SEGMENT, Ok((0x5b8e, 16)));
    assert_over_ipv6(IpNumber::IPV6_ICMP, "80001111123400016162", Ok((0xb0ae, 2)));
    // A complement of 0, and bytes after the datagram.
    assert_over_ipv4(IpNumber::UDP, "04000035000a0000798c", Ok((0xffff, 6)));
    assert_over_ipv4(IpNumber::UDP, "04000035000a0000798c0102", Ok((0xffff, 6)));
}

#[test]
fn segments_get_no_checksum() {
    use ChecksumError::{Incomplete, OtherProtocol, TooLong};
    assert_over_ipv4(
        IpNumber::IPV6_ICMP,
        "80001111123400016162",
        Err(OtherProtocol),
    );
    assert_over_ipv6(IpNumber::ICMP, "08001111123400016162", Err(OtherProtocol));
    assert_over_ipv4(IpNumber::UDP, "04000035000700", Err(Incomplete));
    assert_over_ipv4(IpNumber::UDP, "0400003500070000", Err(Incomplete));
    assert_over_ipv4(IpNumber::UDP, "0400003500090000", Err(Incomplete));
    assert_over_ipv4(IpNumber::TCP, &SEGMENT[..38], Err(Incomplete));
    assert_over_ipv6(IpNumber::IPV6_ICMP, "800011", Err(Incomplete));
    let zeros = vec![0; 65536];
    let of = |protocol, len| calc_checksum_ipv4(INSIDE, SERVER, protocol, &zeros[..len]);
    assert_eq!(of(IpNumber::TCP, 65536), Err(TooLong));
    assert!(of(IpNumber::TCP, 65535).is_ok());
    assert_eq!(of(IpNumber::ICMP, 65536), Ok(0xffff));
    let texts = [OtherProtocol, Incomplete, TooLong].map(|error| error.to_string());
    let wanted = [
        "The protocol has no checksum or ports that are known here.",
        "Not all bytes of the upper layer that are needed are there.",
        "The pseudo-header has no room for the length.",
    ];
    assert_eq!(texts, wanted);
}

#[test]
fn the_fields_of_a_datagram_are_changed() {
    let mut packet =
        bytes_of("46b9002400000000401162f3c0a80001c0a800c79404000004000035000c91ae74657374");
    assert_eq!(set_source_ipv4(&mut packet, PUBLIC), Ok(Reach::Upper));
    assert_eq!(
        packet,
        bytes_of("46b90024000000004011f961c6336407c0a800c79404000004000035000c281d74657374")
    );
    assert_eq!(
        set_destination_ipv4(&mut packet, OTHER_SERVER),
        Ok(Reach::Upper)
    );
    assert_eq!(
        packet,
        bytes_of("46b90024000000004011b0cfc63364070a0000029404000004000035000cdf8a74657374")
    );
    assert_eq!(set_source_port(&mut packet, 40000), Ok(()));
    assert_eq!(
        packet,
        bytes_of("46b90024000000004011b0cfc63364070a000002940400009c400035000c474a74657374")
    );
    assert_eq!(set_destination_port(&mut packet, 5353), Ok(()));
    assert_eq!(
        packet,
        bytes_of("46b90024000000004011b0cfc63364070a000002940400009c4014e9000c329674657374")
    );
    assert_eq!(set_dscp(&mut packet, IpDscp::try_new(10).unwrap()), Ok(()));
    assert_eq!(
        packet,
        bytes_of("46290024000000004011b15fc63364070a000002940400009c4014e9000c329674657374")
    );
    assert_eq!(set_ecn(&mut packet, IpEcn::CongestionExperienced), Ok(()));
    assert_eq!(
        packet,
        bytes_of("462b0024000000004011b15dc63364070a000002940400009c4014e9000c329674657374")
    );
    let packet = SlicedPacket::from_ip(&packet).unwrap();
    assert_eq!(
        (packet.ports(), packet.verdict()),
        (Some((40000, 5353)), Some(Verdict::Right))
    );
}

#[test]
fn the_fields_of_segments_are_changed() {
    // With two bytes after the packet.
    let mut packet = bytes_of(
        "4500002b000000004006f8b4c0a80001c0a800c70400005001020304050607085018200034ea00006162630709",
    );
    assert_eq!(set_source_ipv4(&mut packet, PUBLIC), Ok(Reach::Upper));
    assert_eq!(
        set_destination_ipv4(&mut packet, OTHER_SERVER),
        Ok(Reach::Upper)
    );
    assert_eq!(set_source_port(&mut packet, 40000), Ok(()));
    assert_eq!(set_destination_port(&mut packet, 8080), Ok(()));
    let expected =
        "4500002b0000000040064691c63364070a0000029c401f90010203040506070850182000cb4500006162630709";
    assert_eq!(packet, bytes_of(expected));

    let mut packet = bytes_of(
        "6b9123450017064020010db800000000000000000000000120010db8000000000000000000000002\
         040000500102030405060708501820005b8e0000616263",
    );
    assert_eq!(set_source_port(&mut packet, 40000), Ok(()));
    assert_eq!(set_destination_port(&mut packet, 8080), Ok(()));
    assert_eq!(set_dscp(&mut packet, IpDscp::try_new(10).unwrap()), Ok(()));
    assert_eq!(set_ecn(&mut packet, IpEcn::CongestionExperienced), Ok(()));
    let expected =
        "62b123450017064020010db800000000000000000000000120010db8000000000000000000000002\
         9c401f90010203040506070850182000a40d0000616263";
    assert_eq!(packet, bytes_of(expected));
    assert_eq!(
        set_source_ipv6(&mut packet, longer(0x1234, 0, 0x77)),
        Ok(Reach::Upper)
    );
    assert_eq!(
        set_destination_ipv6(&mut packet, longer(5, 0, 0x99)),
        Ok(Reach::Upper)
    );
    let expected =
        "62b123450017064020010db812340000000000000000007720010db8000500000000000000000099\
         9c401f9001020304050607085018200090c70000616263";
    assert_eq!(packet, bytes_of(expected));
}

#[test]
fn an_address_reaches_as_far_as_a_checksum_covers_it() {
    let mut icmpv6 = bytes_of(
        "60000000000a3a4020010db800000000000000000000000120010db8000000000000000000000002\
         8000b0ae123400016162",
    );
    assert_eq!(
        set_source_ipv6(&mut icmpv6, longer(0x1234, 0, 0x77)),
        Ok(Reach::Upper)
    );
    assert_eq!(
        set_destination_ipv6(&mut icmpv6, longer(5, 0, 0x99)),
        Ok(Reach::Upper)
    );
    let expected =
        "60000000000a3a4020010db812340000000000000000007720010db8000500000000000000000099\
         80009d68123400016162";
    assert_eq!(icmpv6, bytes_of(expected));

    let mut later = bytes_of("4500001c123420014011c683c0a80001c0a800c70102030405060708");
    assert_eq!(
        set_source_ipv4(&mut later, PUBLIC),
        Ok(Reach::LaterFragment)
    );
    assert_eq!(
        later,
        bytes_of("4500001c1234200140115cf2c6336407c0a800c70102030405060708")
    );

    let mut icmp = bytes_of("4500001e000000004001f8c6c0a80001c0a800c708008468123400016162");
    assert_eq!(set_source_ipv4(&mut icmp, PUBLIC), Ok(Reach::OtherProtocol));
    assert_eq!(
        icmp,
        bytes_of("4500001e0000000040018f35c6336407c0a800c708008468123400016162")
    );

    // No checksum, which stays so.
    let mut none = bytes_of("45000020000000004011f8b4c0a80001c0a800c704000035000c000074657374");
    assert_eq!(set_source_ipv4(&mut none, PUBLIC), Ok(Reach::Upper));
    assert_eq!(
        none,
        bytes_of("450000200000000040118f23c6336407c0a800c704000035000c000074657374")
    );
}

#[test]
fn another_care_of_address_leaves_the_checksum_for_the_home_address() {
    // Destination options with a Home Address option of 2001:db8::5.
    let mut packet = bytes_of(
        "6000000000243c4020010db800000000000000000000000120010db80000000000000000000000021102010200\
         00c91020010db800000000000000000000000504000035000cb84e74657374",
    );
    let last = packet[40..].to_vec();
    let verdict = |packet: &[u8]| SlicedPacket::from_ip(packet).unwrap().verdict();
    assert_eq!(verdict(&packet), Some(Verdict::Right));
    assert_eq!(
        set_source_ipv6(&mut packet, longer(0, 0, 0x77)),
        Ok(Reach::Upper)
    );
    assert_eq!(packet[8..24], longer(0, 0, 0x77));
    assert_eq!(packet[40..], last);
    assert_eq!(verdict(&packet), Some(Verdict::Right));
    // An option of another type is no home address: the source of the header is the original one.
    packet[46] = 0xca;
    assert_eq!(verdict(&packet), Some(Verdict::Wrong));
    assert_eq!(
        set_source_ipv6(&mut packet, longer(0, 0, 0x78)),
        Ok(Reach::Upper)
    );
    assert_eq!(packet[70..72], [0xb8, 0x4d]);
}

#[test]
fn another_next_stop_leaves_the_checksum_for_the_final_destination() {
    // Segment routing to 2001:db8::4, with one segment left.
    let mut packet = bytes_of(
        "6000000000342b4020010db800000000000000000000000120010db80000000000000000000000021104040101000000\
         20010db800000000000000000000000420010db800000000000000000000000304000035000cb85074657374",
    );
    let last = packet[80..].to_vec();
    assert_eq!(
        set_destination_ipv6(&mut packet, longer(0, 0, 9)),
        Ok(Reach::Upper)
    );
    assert_eq!(packet[24..40], longer(0, 0, 9));
    assert_eq!(packet[80..], last);
    let verdict = |packet: &[u8]| SlicedPacket::from_ip(packet).unwrap().verdict();
    assert_eq!(verdict(&packet), Some(Verdict::Right));
    // With none left, the destination is the final one.
    packet[43] = 0;
    assert_eq!(verdict(&packet), Some(Verdict::Wrong));
    packet[86..88].copy_from_slice(&0xb84bu16.to_be_bytes());
    assert_eq!(verdict(&packet), Some(Verdict::Right));
    assert_eq!(
        set_destination_ipv6(&mut packet, longer(0, 0, 4)),
        Ok(Reach::Upper)
    );
    assert_eq!(packet[86..88], [0xb8, 0x50]);
    assert_eq!(verdict(&packet), Some(Verdict::Right));
}

#[test]
fn another_next_stop_leaves_the_checksum_for_the_end_of_a_source_route() {
    // A loose source route to 192.0.2.99, which is left.
    let mut packet = bytes_of(
        "470000280000000040110be3c0a80001c0a800c7830704c00002630004000035000c90ba74657374",
    );
    let verdict = |packet: &[u8]| SlicedPacket::from_ip(packet).unwrap().verdict();
    assert_eq!(verdict(&packet), Some(Verdict::Right));
    assert_eq!(
        set_destination_ipv4(&mut packet, [10, 0, 0, 9]),
        Ok(Reach::Upper)
    );
    assert_eq!(packet[10..12], [0xc3, 0x49]);
    assert_eq!(packet[16..20], [10, 0, 0, 9]);
    assert_eq!(packet[34..36], [0x90, 0xba]);
    assert_eq!(verdict(&packet), Some(Verdict::Right));
    // Once it is visited, the destination is the final one.
    packet[22] = 8;
    assert_eq!(verdict(&packet), Some(Verdict::Wrong));
    packet[34..36].copy_from_slice(&0x4915u16.to_be_bytes());
    assert_eq!(verdict(&packet), Some(Verdict::Right));
    assert_eq!(
        set_destination_ipv4(&mut packet, [192, 168, 0, 199]),
        Ok(Reach::Upper)
    );
    assert_eq!(packet[34..36], [0x91, 0xae]);
    assert_eq!(verdict(&packet), Some(Verdict::Right));
}

#[test]
fn refused_packets_stay() {
    use RewriteError::*;
    let first = bytes_of("4500001c000020004006e8c3c0a80001c0a800c70400005001020304");
    let later = bytes_of("4500001c123420014011c683c0a80001c0a800c70102030405060708");
    let icmp = bytes_of("4500001e000000004001f8c6c0a80001c0a800c708008468123400016162");
    // Hop-by-hop options of 16 bytes, of which 8 are there.
    let cut = bytes_of(
        "600000000008004020010db800000000000000000000000120010db8000000000000000000000002\
         1101000000000000",
    );
    let change = |packet: &[u8], change: &dyn Fn(&mut [u8]) -> Result<(), RewriteError>| {
        let mut changed = packet.to_vec();
        let error = change(&mut changed).unwrap_err();
        assert_eq!(changed, packet);
        error
    };
    let source = |packet: &mut [u8]| set_source_ipv4(packet, PUBLIC).map(|_| ());
    let destination = |packet: &mut [u8]| set_destination_ipv6(packet, longer(1, 2, 3)).map(|_| ());
    let dscp = |packet: &mut [u8]| set_dscp(packet, IpDscp::try_new(1).unwrap());
    let ecn = |packet: &mut [u8]| set_ecn(packet, IpEcn::Ect1);
    let found = [
        change(&[], &source),
        change(&[0x55; 20], &dscp),
        change(&first[..19], &source),
        change(&[0x65; 39], &ecn),
        change(&first[..27], &source),
        change(&cut, &destination),
        change(&first, &destination),
        change(&first, &source),
        change(&later, &|packet| set_source_port(packet, 1)),
        change(&icmp, &|packet| set_destination_port(packet, 1)),
    ];
    let wanted = [
        (Empty, "The packet has no bytes."),
        (UnexpectedVersion, "The IP version is neither 4 nor 6."),
        (Ipv4Header, "The packet has no whole IPv4 header."),
        (Ipv6Header, "The packet has no whole IPv6 header."),
        (
            Packet,
            "The length field of the IP header does not fit the packet.",
        ),
        (
            Extensions,
            "The packet ends within an IPv6 extension header.",
        ),
        (OtherVersion, "The packet has the other IP version."),
        (
            Incomplete,
            "Not all bytes of the upper layer that are needed are there.",
        ),
        (
            LaterFragment,
            "The packet is a later fragment, which has no ports.",
        ),
        (
            OtherProtocol,
            "The protocol has no checksum or ports that are known here.",
        ),
    ];
    assert_eq!(found, wanted.map(|(error, _)| error));
    assert_eq!(
        found.map(|error| error.to_string()),
        wanted.map(|(_, text)| text)
    );
}
