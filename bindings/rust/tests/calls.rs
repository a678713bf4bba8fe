//! Calls the library from safe Rust, each call once with what it finds and once with what it
//! refuses, on packets whose fields all differ.

mod common;

use common::{cause, len_error};
use etherparse_proved::err::ipv4::{self, BadOptionsLen};
use etherparse_proved::err::ipv6::{self, ChainError};
use etherparse_proved::err::{Layer, LenError, ValueTooBigError, ValueType};
use etherparse_proved::{checksum, EtherType, IpDscp, IpEcn, IpFragOffset, IpNumber, Ipv4Header};
use etherparse_proved::{Ipv4HeaderSlice, Ipv4Options, Ipv6FlowLabel, Ipv6Header, Ipv6HeaderSlice};
use etherparse_proved::LenSource;

const IPV4: [u8; 27] = [
    0x46, 0x29, 1, 2, 3, 4, 0x55, 6, 7, 8, 9, 10, 11, 12, 13, 14, 15, 16, 17, 18, 19, 20, 21, 22,
    23, 24, 25,
];

const IPV6: [u8; 43] = [
    0x61, 0x23, 0x45, 0x67, 0x89, 0xab, 0xcd, 0xef, 0x20, 0x21, 0x22, 0x23, 0x24, 0x25, 0x26, 0x27,
    0x28, 0x29, 0x2a, 0x2b, 0x2c, 0x2d, 0x2e, 0x2f, 0x30, 0x31, 0x32, 0x33, 0x34, 0x35, 0x36, 0x37,
    0x38, 0x39, 0x3a, 0x3b, 0x3c, 0x3d, 0x3e, 0x3f, 1, 2, 3,
];

fn ipv4_header() -> Ipv4Header {
    Ipv4Header {
        dscp: IpDscp::try_new(10).unwrap(),
        ecn: IpEcn::Ect1,
        total_len: 0x0102,
        identification: 0x0304,
        dont_fragment: true,
        more_fragments: false,
        fragment_offset: IpFragOffset::try_new(0x1506).unwrap(),
        time_to_live: 7,
        protocol: IpNumber(8),
        header_checksum: 0x090a,
        source: [11, 12, 13, 14],
        destination: [15, 16, 17, 18],
        options: Ipv4Options::from([19, 20, 21, 22]),
    }
}

fn ipv6_header() -> Ipv6Header {
    Ipv6Header {
        traffic_class: 0x12,
        flow_label: Ipv6FlowLabel::try_new(0x34567).unwrap(),
        payload_length: 0x89ab,
        next_header: IpNumber(0xcd),
        hop_limit: 0xef,
        source: std::array::from_fn(|i| 0x20 + i as u8),
        destination: std::array::from_fn(|i| 0x30 + i as u8),
    }
}

#[test]
fn an_ipv4_header_is_read_and_written() {
    let (header, rest) = Ipv4Header::from_slice(&IPV4).unwrap();
    assert_eq!((header, rest), (ipv4_header(), &[23, 24, 25][..]));
    let (header, mut bytes) = (ipv4_header(), ipv4_header().to_bytes());
    assert_eq!((bytes.as_slice(), bytes.as_ref()), (&IPV4[..24], &IPV4[..24]));
    assert_eq!(bytes.as_mut_slice(), &IPV4[..24]);
    bytes[8] = 6;
    assert_ne!(bytes, header.to_bytes());
    assert_eq!(header.source_addr().octets(), [11, 12, 13, 14]);
    assert_eq!(header.destination_addr().octets(), [15, 16, 17, 18]);
    assert!(header.is_fragmenting_payload() && !Ipv4Header::default().is_fragmenting_payload());
}

#[test]
fn an_ipv4_view_shows_the_header() {
    let view = Ipv4HeaderSlice::from_slice(&IPV4).unwrap();
    assert_eq!((view.slice(), view.options()), (&IPV4[..24], &IPV4[20..24]));
    assert_eq!((view.version(), view.ihl()), (4, 6));
    assert_eq!((view.dcp().value(), view.ecn()), (10, IpEcn::Ect1));
    assert_eq!((view.total_len(), view.identification()), (258, 772));
    assert_eq!((view.dont_fragment(), view.more_fragments()), (true, false));
    assert!(view.is_fragmenting_payload());
    assert_eq!(view.fragments_offset().value(), 0x1506);
    assert_eq!((view.ttl(), view.protocol()), (7, IpNumber(8)));
    assert_eq!(view.header_checksum(), 0x090a);
    assert_eq!(view.source_addr().octets(), [11, 12, 13, 14]);
    assert_eq!(view.destination_addr().octets(), [15, 16, 17, 18]);
    assert_eq!(view.payload_len(), Ok(234));
    let mut other = IPV4;
    other[8] = 6;
    assert_ne!(Ipv4HeaderSlice::from_slice(&other), Ok(view));
    assert_eq!(view.to_header(), ipv4_header());
}

#[test]
fn ipv4_refusals_have_their_texts() {
    use ipv4::{HeaderError, HeaderSliceError};
    let short = HeaderSliceError::Len(len_error(Layer::Ipv4Header, 20, 19, 0));
    assert_eq!(Ipv4Header::from_slice(&IPV4[..19]), Err(short.clone()));
    assert_eq!(cause(&short), Some(short.to_string()));
    assert_eq!(Ipv4HeaderSlice::from_slice(&IPV4[..19]), Err(short));
    let short = HeaderSliceError::Len(len_error(Layer::Ipv4Header, 24, 23, 0));
    assert_eq!(Ipv4Header::from_slice(&IPV4[..23]), Err(short.clone()));
    assert_eq!(
        short.add_slice_offset(14).to_string(),
        "IPv4 Header Error: Not enough data to decode 'IPv4 header'. 24 byte(s) would be required, but only 23 byte(s) are available based on the slice length ('IPv4 header' starts at overall parsed byte 14)."
    );
    let version = HeaderSliceError::Content(HeaderError::UnexpectedVersion { version_number: 6 });
    assert_eq!(Ipv4Header::from_slice(&IPV6), Err(version.clone()));
    assert_eq!(
        version.to_string(),
        "IPv4 Header Error: Encountered '6' as IP version number in the IPv4 header (must be '4' in an IPv4 header)."
    );
    let ihl = HeaderSliceError::Content(HeaderError::HeaderLengthSmallerThanHeader { ihl: 4 });
    assert_eq!(Ipv4Header::from_slice(&[0x44; 20]), Err(ihl.clone()));
    assert_eq!(cause(&ihl), Some(ihl.to_string()));
    assert_eq!(
        ihl.to_string(),
        "IPv4 Header Error: The 'internet header length' value '4' present in the IPv4 header is smaller than the minimum size of an IPv4 header. The minimum allowed value is '5'."
    );
}

#[test]
fn lengths_of_an_ipv4_header() {
    let mut header = ipv4_header();
    assert_eq!((header.ihl(), header.header_len()), (6, 24));
    let bounds = (Ipv4Header::MIN_LEN, Ipv4Header::MIN_LEN_U16, Ipv4Header::MAX_LEN);
    assert_eq!(bounds, (20, 20, 60));
    assert_eq!(header.max_payload_len(), 65511);
    header.total_len = 23;
    let error = header.payload_len().unwrap_err();
    let wanted = LenError {
        len_source: LenSource::Ipv4HeaderTotalLen,
        ..len_error(Layer::Ipv4Packet, 24, 23, 0)
    };
    assert_eq!(error, wanted);
    assert_eq!(
        error.to_string(),
        "IPv4 Packet Error: Not enough data to decode 'IPv4 packet'. 24 byte(s) would be required, but only 23 byte(s) are available based on the length calculated from the IPv4 header 'total length' field."
    );
    header.set_payload_len(65511).unwrap();
    assert_eq!(header.total_len, 65535);
    let error = header.set_payload_len(65512).unwrap_err();
    assert_eq!((error.actual, error.max_allowed), (65512, 65511));
    assert_eq!(error.value_type, ValueType::Ipv4PayloadLength);
}

#[test]
fn an_ipv4_header_is_made_and_changed() {
    let (source, destination) = ([192, 168, 0, 1], [192, 168, 0, 199]);
    let mut header = Ipv4Header::new(95, 64, IpNumber::UDP, source, destination).unwrap();
    assert_eq!((header.total_len, header.dont_fragment), (115, true));
    header.header_checksum = header.calc_header_checksum();
    assert_eq!(header.header_checksum, 0xb861);
    assert!(header.lower_time_to_live());
    assert_eq!((header.time_to_live, header.header_checksum), (63, 0xb961));
    header.time_to_live = 0;
    assert!(!header.lower_time_to_live() && header.time_to_live == 0);
    header.set_options(&[1, 1, 1, 0]).unwrap();
    assert_eq!((header.options(), header.header_len()), (&[1, 1, 1, 0][..], 24));
    let error = Ipv4Header::new(65516, 64, IpNumber::UDP, source, destination).unwrap_err();
    assert_eq!((error.actual, error.max_allowed), (65516, 65515));
    assert_eq!(
        error.to_string(),
        "Error '65516' is too big to be a 'IPv4 Header 'Payload Length' (sets 'Total Length')' (maximum allowed value is '65515')"
    );
    let default = Ipv4Header::default();
    assert_eq!((default.protocol, default.time_to_live), (IpNumber(255), 0));
}

#[test]
fn an_ipv6_header_is_read_and_written() {
    let (header, rest) = Ipv6Header::from_slice(&IPV6).unwrap();
    assert_eq!((header, rest), (ipv6_header(), &[1, 2, 3][..]));
    assert_eq!(ipv6_header().to_bytes()[..], IPV6[..40]);
    assert_eq!(Ipv6Header::default().next_header, IpNumber(255));
}

#[test]
fn an_ipv6_header_is_changed() {
    let mut header = ipv6_header();
    assert_eq!((header.header_len(), header.source_addr().octets()), (40, header.source));
    assert_eq!(header.destination_addr().octets(), header.destination);
    assert_eq!((header.dscp().value(), header.ecn()), (4, IpEcn::Ect0));
    header.set_dscp(IpDscp::try_new(46).unwrap());
    assert_eq!(header.traffic_class, 0xba);
    header.set_ecn(IpEcn::Ect1);
    assert_eq!(header.traffic_class, 0xb9);
    header.set_payload_length(65535).unwrap();
    assert_eq!(header.payload_length, 65535);
}

#[test]
fn an_ipv6_view_shows_the_header() {
    let view = Ipv6HeaderSlice::from_slice(&IPV6).unwrap();
    assert_eq!((view.slice(), view.version()), (&IPV6[..40], 6));
    assert_eq!((view.traffic_class(), view.dscp().value()), (18, 4));
    assert_eq!((view.ecn(), view.flow_label().value()), (IpEcn::Ect0, 0x34567));
    assert_eq!((view.payload_length(), view.hop_limit()), (0x89ab, 0xef));
    assert_eq!(view.next_header(), IpNumber(0xcd));
    let mut other = IPV6;
    other[7] = 6;
    assert_ne!(Ipv6HeaderSlice::from_slice(&other), Ok(view));
    assert_eq!(view.to_header(), ipv6_header());
}

#[test]
fn ipv6_refusals_have_their_texts() {
    use ipv6::{HeaderError, HeaderSliceError};
    let short = HeaderSliceError::Len(len_error(Layer::Ipv6Header, 40, 39, 0));
    assert_eq!(Ipv6Header::from_slice(&IPV6[..39]), Err(short.clone()));
    assert_eq!(
        short.to_string(),
        "IPv6 Header Error: Not enough data to decode 'IPv6 header'. 40 byte(s) would be required, but only 39 byte(s) are available based on the slice length."
    );
    let version = HeaderSliceError::Content(HeaderError::UnexpectedVersion { version_number: 4 });
    assert_eq!(Ipv6HeaderSlice::from_slice(&[0x45; 40]), Err(version.clone()));
    assert_eq!(
        version.to_string(),
        "IPv6 Header Error: Encountered '4' as IP version number in the IPv6 header (must be '6' in an IPv6 header)."
    );
    assert_eq!(cause(&version), Some(version.to_string()));
    assert_eq!(cause(&short), Some(short.to_string()));
    let further = HeaderSliceError::Len(len_error(Layer::Ipv6Header, 40, 39, 14));
    assert_eq!(short.add_slice_offset(14), further);
}

#[test]
fn extension_headers_are_skipped() {
    let slice = [43, 0, 0, 0, 0, 0, 0, 0, 6, 1, 0];
    let hop_by_hop = IpNumber::IPV6_HEADER_HOP_BY_HOP;
    assert_eq!(
        Ipv6Header::skip_header_extension_in_slice(&slice, hop_by_hop),
        Ok((IpNumber::IPV6_ROUTE_HEADER, &slice[8..]))
    );
    assert_eq!(
        Ipv6Header::skip_header_extension_in_slice(&slice, IpNumber::UDP),
        Ok((IpNumber::UDP, &slice[..]))
    );
    assert_eq!(
        Ipv6Header::skip_all_header_extensions_in_slice(&slice, hop_by_hop),
        Err(len_error(Layer::Ipv6ExtHeader, 16, 3, 8))
    );
    assert_eq!(
        Ipv6Header::skip_all_header_extensions_in_slice(&slice[..8], IpNumber(44)),
        Err(len_error(Layer::Ipv6ExtHeader, 2, 0, 8))
    );
    let error = Ipv6Header::skip_header_extensions_up_to(&slice, hop_by_hop, 1).unwrap_err();
    let wanted = ChainError::TooMany {
        limit: 1,
        next_header: 43,
        layer_start_offset: 8,
    };
    assert_eq!(error, wanted);
    assert_eq!(
        error.to_string(),
        "IPv6 Extension Header Error: More than 1 extension header(s) ('43' starts at overall parsed byte 8)."
    );
    let wanted = ChainError::TooMany {
        limit: 1,
        next_header: 43,
        layer_start_offset: 48,
    };
    assert_eq!((cause(&error), error.add_slice_offset(40)), (None, wanted));
    let error = Ipv6Header::skip_header_extensions_up_to(&slice, hop_by_hop, 2).unwrap_err();
    let (error, wanted) = (error.add_slice_offset(40), len_error(Layer::Ipv6ExtHeader, 16, 3, 48));
    assert_eq!((error.to_string(), cause(&error)), (wanted.to_string(), Some(wanted.to_string())));
    assert_eq!(error, ChainError::Len(wanted));
    let whole = [43, 0, 0, 0, 0, 0, 0, 0, 6, 0, 0, 0, 0, 0, 0, 0, 9];
    assert_eq!(
        Ipv6Header::skip_all_header_extensions_in_slice(&whole, hop_by_hop),
        Ok((IpNumber::TCP, &[9][..]))
    );
    let skippable: Vec<u8> = (0..=255)
        .filter(|number| Ipv6Header::is_skippable_header_extension(IpNumber(*number)))
        .collect();
    assert_eq!(skippable, [0, 43, 44, 51, 60, 135, 139, 140]);
}

#[test]
fn values_out_of_their_bounds_have_their_texts() {
    let error = IpDscp::try_new(64).unwrap_err();
    let wanted = ValueTooBigError {
        actual: 64,
        max_allowed: 63,
        value_type: ValueType::IpDscp,
    };
    assert_eq!(error, wanted);
    let texts = [
        error.to_string(),
        IpEcn::try_new(4).unwrap_err().to_string(),
        IpFragOffset::try_new(8192).unwrap_err().to_string(),
        Ipv6FlowLabel::try_new(1_048_576).unwrap_err().to_string(),
        ipv6_header().set_payload_length(65536).unwrap_err().to_string(),
    ];
    let wanted = [
        "Error '64' is too big to be a 'IPv4 DSCP (Differentiated Services Code Point)' (maximum allowed value is '63')",
        "Error '4' is too big to be a 'IPv4 ECN (Explicit Congestion Notification)' (maximum allowed value is '3')",
        "Error '8192' is too big to be a 'IP Fragment Offset' (maximum allowed value is '8191')",
        "Error '1048576' is too big to be a 'IPv6 Flow Label' (maximum allowed value is '1048575')",
        "Error '65536' is too big to be a 'IPv6 Header 'Payload Length'' (maximum allowed value is '65535')",
    ];
    assert_eq!(texts, wanted);
    let error = Ipv4Options::try_from(&[0; 44][..]).unwrap_err();
    assert_eq!(error, BadOptionsLen { bad_len: 44 });
    let error = Ipv4Options::try_from(&[0; 3][..]).unwrap_err();
    assert_eq!(error, BadOptionsLen { bad_len: 3 });
    assert_eq!(
        error.to_string(),
        "Slice of length 3 cannot be set as IPv4 header options. The length must be a multiple of 4 and at maximum 40."
    );
}

#[test]
fn fields_are_their_numbers() {
    let ecns = [IpEcn::ZERO, IpEcn::ONE, IpEcn::TWO, IpEcn::THREE];
    assert_eq!([0, 1, 2, 3].map(|number| IpEcn::try_from(number).unwrap()), ecns);
    assert_eq!(ecns.map(|ecn| ecn.to_string()), ["0", "1", "2", "3"]);
    let dscp = IpDscp::try_from(63).unwrap();
    assert_eq!((dscp.to_string().as_str(), u8::from(dscp)), ("63", 63));
    assert_eq!(IpFragOffset::try_new(8191).unwrap().byte_offset(), 65528);
}

// Those of IANA's registries of IP protocols and EtherTypes.
#[test]
fn numbers_are_those_of_the_registries() {
    let numbers = [
        IpNumber::IPV6_HEADER_HOP_BY_HOP,
        IpNumber::ICMP,
        IpNumber::TCP,
        IpNumber::UDP,
        IpNumber::IPV6_ROUTE_HEADER,
        IpNumber::IPV6_FRAGMENTATION_HEADER,
        IpNumber::ENCAPSULATING_SECURITY_PAYLOAD,
        IpNumber::AUTHENTICATION_HEADER,
        IpNumber::IPV6_ICMP,
        IpNumber::IPV6_NO_NEXT_HEADER,
        IpNumber::IPV6_DESTINATION_OPTIONS,
        IpNumber::MOBILITY_HEADER,
        IpNumber::HIP,
        IpNumber::SHIM6,
    ];
    let wanted = [0, 1, 6, 17, 43, 44, 50, 51, 58, 59, 60, 135, 139, 140];
    assert_eq!(numbers.map(u8::from), wanted);
    let types = [
        EtherType::IPV4,
        EtherType::ARP,
        EtherType::VLAN_TAGGED_FRAME,
        EtherType::IPV6,
        EtherType::PROVIDER_BRIDGING,
        EtherType::MACSEC,
        EtherType::VLAN_DOUBLE_TAGGED_FRAME,
    ];
    let wanted = [0x0800, 0x0806, 0x8100, 0x86dd, 0x88a8, 0x88e5, 0x9100];
    assert_eq!((types.map(u16::from), types), (wanted, wanted.map(EtherType::from)));
}

#[test]
fn options_are_their_bytes() {
    let short = Ipv4Options::from([2, 0, 0, 0]);
    let long = Ipv4Options::from([1, 0, 0, 0, 1, 0, 0, 0]);
    assert_eq!((short.len(), short.is_empty(), Ipv4Options::MAX_LEN), (4, false, 40));
    assert!(long < short && long != Ipv4Options::from([1, 0, 0, 0]));
    assert!(std::collections::HashSet::from([short]).contains(&[2, 0, 0, 0][..]));
}

#[test]
fn sums_and_updates() {
    use checksum::{u32_16bit_word, u64_16bit_word};
    let bytes = [1, 2, 3, 4, 5, 6, 7];
    let sum = u64_16bit_word::add_slice(0, &bytes);
    assert_eq!(u64_16bit_word::ones_complement(sum), 0xf3ef);
    assert_eq!(u64_16bit_word::ones_complement_with_no_zero(sum), 0xf3ef);
    assert_eq!(u64_16bit_word::checksum(0, &bytes), 0xf3ef);
    let (front, back) = bytes.split_at(4);
    let sum = u64_16bit_word::add_slice(0, front);
    assert_eq!(u64_16bit_word::checksum(sum, back), 0xf3ef);
    let sum = u64_16bit_word::add_slice(sum, back);
    assert_eq!(u64_16bit_word::ones_complement(sum), 0xf3ef);
    assert_eq!(u64_16bit_word::ones_complement(u64::MAX), 0);
    assert_eq!(u64_16bit_word::ones_complement_with_no_zero(u64::MAX), 0xffff);
    assert_eq!(u32_16bit_word::ones_complement(u32::MAX), 0);
    assert_eq!(checksum::checksum(&bytes), 0xeff3);
    let sum = u32_16bit_word::add_slices(&[&bytes[..4], &[], &bytes[4..]]);
    assert_eq!(u32_16bit_word::ones_complement(sum), 0xf3ef);
    assert_eq!(u32_16bit_word::ones_complement_with_no_zero(u32::MAX), 0xffff);
    assert_eq!(u32_16bit_word::checksum(0, &[]), 0xffff);
    assert_eq!(checksum::update_2bytes(0xdd2f, [0x55, 0x55], [0x32, 0x85]), 0);
    let (old, new) = ([192, 168, 0, 199], [192, 168, 0, 200]);
    assert_eq!(checksum::update_4bytes(0xb861, old, new), 0xb860);
    let (mut old, mut new) = ([0; 16], [0; 16]);
    (old[15], new[15]) = (1, 2);
    assert_eq!(checksum::update_16bytes(0x1234, old, new), 0x1233);
}
