//! The words of a case.

use crate::names;
use etherparse::err::{ipv4, ipv6, Layer, LenError, SliceWriteSpaceError, ValueType};
use etherparse::{IpDscp, IpEcn, IpFragOffset, IpNumber, LenSource};
use etherparse::{Ipv4Header, Ipv4Options, Ipv6FlowLabel, Ipv6Header};
use std::str::FromStr;

/// A decimal number with no sign and no leading zeros.
pub fn number<T: FromStr>(word: &str) -> Option<T> {
    let is_decimal = word.bytes().all(|byte| byte.is_ascii_digit());
    if !is_decimal || (word.starts_with('0') && word != "0") {
        return None;
    }
    word.parse().ok()
}

/// Bytes as lower-case hex digits, or `-` for none.
pub fn bytes(word: &str) -> Option<Vec<u8>> {
    match word {
        "-" => Some(Vec::new()),
        "" => None,
        _ => word.as_bytes().chunks(2).map(byte).collect(),
    }
}

fn byte(digits: &[u8]) -> Option<u8> {
    let [high, low] = digits else { return None };
    Some(digit(*high)? * 16 + digit(*low)?)
}

fn digit(byte: u8) -> Option<u8> {
    match byte {
        b'0'..=b'9' => Some(byte - b'0'),
        b'a'..=b'f' => Some(byte - b'a' + 10),
        _ => None,
    }
}

pub fn array<const N: usize>(word: &str) -> Option<[u8; N]> {
    bytes(word)?.try_into().ok()
}

pub fn flag(word: &str) -> Option<bool> {
    match word {
        "0" => Some(false),
        "1" => Some(true),
        _ => None,
    }
}

/// The value that has a name in a table.
fn named<T: Copy>(table: &[(&str, T)], name: &str) -> Option<T> {
    table.iter().find(|row| row.0 == name).map(|row| row.1)
}

pub fn layer(word: &str) -> Option<Layer> {
    named(names::LAYERS, word)
}

pub fn value_type(word: &str) -> Option<ValueType> {
    named(names::VALUE_TYPES, word)
}

pub fn dscp(word: &str) -> Option<IpDscp> {
    IpDscp::try_new(number(word)?).ok()
}

pub fn ecn(word: &str) -> Option<IpEcn> {
    IpEcn::try_new(number(word)?).ok()
}

pub fn fragment_offset(word: &str) -> Option<IpFragOffset> {
    IpFragOffset::try_new(number(word)?).ok()
}

pub fn flow_label(word: &str) -> Option<Ipv6FlowLabel> {
    Ipv6FlowLabel::try_new(number(word)?).ok()
}

pub fn ip_number(word: &str) -> Option<IpNumber> {
    Some(IpNumber(number(word)?))
}

pub fn options(word: &str) -> Option<Ipv4Options> {
    Ipv4Options::try_from(&bytes(word)?[..]).ok()
}

/// An IPv4 header of its 13 fields.
pub fn ipv4_header(words: &[&str]) -> Option<Ipv4Header> {
    let [first @ .., source, destination, held] = words else { return None };
    let [dscp_, ecn_, total_len, identification, first @ ..] = first else { return None };
    let [dont_fragment, more_fragments, place, first @ ..] = first else { return None };
    let [time_to_live, protocol, header_checksum] = first else { return None };
    Some(Ipv4Header {
        dscp: dscp(dscp_)?,
        ecn: ecn(ecn_)?,
        total_len: number(total_len)?,
        identification: number(identification)?,
        dont_fragment: flag(dont_fragment)?,
        more_fragments: flag(more_fragments)?,
        fragment_offset: fragment_offset(place)?,
        time_to_live: number(time_to_live)?,
        protocol: ip_number(protocol)?,
        header_checksum: number(header_checksum)?,
        source: array(source)?,
        destination: array(destination)?,
        options: options(held)?,
    })
}

/// An IPv6 header of its 7 fields.
pub fn ipv6_header(words: &[&str]) -> Option<Ipv6Header> {
    let [traffic_class, label, length, next_header, hop_limit, source, destination] = words else {
        return None;
    };
    Some(Ipv6Header {
        traffic_class: number(traffic_class)?,
        flow_label: flow_label(label)?,
        payload_length: number(length)?,
        next_header: ip_number(next_header)?,
        hop_limit: number(hop_limit)?,
        source: array(source)?,
        destination: array(destination)?,
    })
}

pub fn len_error(words: &[&str]) -> Option<LenError> {
    let [required_len, len, len_source, at, offset] = words else { return None };
    Some(LenError {
        required_len: number(required_len)?,
        len: number(len)?,
        len_source: named::<LenSource>(names::LEN_SOURCES, len_source)?,
        layer: layer(at)?,
        layer_start_offset: number(offset)?,
    })
}

pub fn space_error(words: &[&str]) -> Option<SliceWriteSpaceError> {
    let [required_len, len, at, offset] = words else { return None };
    Some(SliceWriteSpaceError {
        required_len: number(required_len)?,
        len: number(len)?,
        layer: layer(at)?,
        layer_start_offset: number(offset)?,
    })
}

pub fn ipv4_error(words: &[&str]) -> Option<ipv4::HeaderSliceError> {
    use ipv4::{HeaderError, HeaderSliceError};
    match words {
        ["len", error @ ..] => Some(HeaderSliceError::Len(len_error(error)?)),
        ["version", version] => {
            let version_number = number(version)?;
            Some(HeaderSliceError::Content(HeaderError::UnexpectedVersion { version_number }))
        }
        ["ihl", ihl] => {
            let ihl = number(ihl)?;
            Some(HeaderSliceError::Content(HeaderError::HeaderLengthSmallerThanHeader { ihl }))
        }
        _ => None,
    }
}

pub fn ipv6_error(words: &[&str]) -> Option<ipv6::HeaderSliceError> {
    use ipv6::{HeaderError, HeaderSliceError};
    match words {
        ["len", error @ ..] => Some(HeaderSliceError::Len(len_error(error)?)),
        ["version", version] => {
            let version_number = number(version)?;
            Some(HeaderSliceError::Content(HeaderError::UnexpectedVersion { version_number }))
        }
        _ => None,
    }
}

/// The words before and behind the one word `/`.
pub fn halves<'a, 'b>(words: &'a [&'b str]) -> Option<(&'a [&'b str], &'a [&'b str])> {
    let place = words.iter().position(|word| *word == "/")?;
    Some((&words[..place], &words[place + 1..]))
}
