//! How answers are written.

use etherparse::err::ipv4::BadOptionsLen;
use etherparse::err::{ipv4, ipv6, LenError, ValueTooBigError};
use etherparse::{Ipv4Header, Ipv6Header};
use std::cmp::Ordering;
use std::fmt::{Debug, Display};
use std::hash::Hash;

/// Lower-case hex digits, or `-` for no bytes.
pub fn bytes(bytes: &[u8]) -> String {
    if bytes.is_empty() {
        return "-".to_string();
    }
    bytes.iter().map(|byte| format!("{byte:02x}")).collect()
}

/// The order and the equality of two values.
pub fn comparison<T: Ord>(a: &T, b: &T) -> String {
    let order = match a.cmp(b) {
        Ordering::Less => "lt",
        Ordering::Equal => "eq",
        Ordering::Greater => "gt",
    };
    assert!(a.partial_cmp(b) == Some(a.cmp(b)));
    format!("{order} eq={}", a == b)
}

pub fn equality<T: PartialEq>(a: &T, b: &T) -> String {
    format!("eq={}", a == b)
}

pub fn too_big<T>(error: &ValueTooBigError<T>) -> String
where
    T: Sized + Clone + Display + Debug + Eq + PartialEq + Hash,
{
    let ValueTooBigError { actual, max_allowed, value_type } = error;
    format!("err too_big actual={actual} max={max_allowed} type={value_type:?}")
}

pub fn bad_options(error: &BadOptionsLen) -> String {
    format!("err bad_options bad_len={}", error.bad_len)
}

pub fn len_error(error: &LenError) -> String {
    format!(
        "err len required={} len={} source={:?} layer={:?} offset={}",
        error.required_len, error.len, error.len_source, error.layer, error.layer_start_offset
    )
}

pub fn ipv4_error(error: &ipv4::HeaderSliceError) -> String {
    use ipv4::{HeaderError::*, HeaderSliceError::*};
    match error {
        Len(error) => len_error(error),
        Content(UnexpectedVersion { version_number }) => version_error(*version_number),
        Content(HeaderLengthSmallerThanHeader { ihl }) => format!("err ihl ihl={ihl}"),
    }
}

pub fn ipv6_error(error: &ipv6::HeaderSliceError) -> String {
    use ipv6::{HeaderError::*, HeaderSliceError::*};
    match error {
        Len(error) => len_error(error),
        Content(UnexpectedVersion { version_number }) => version_error(*version_number),
    }
}

fn version_error(version_number: u8) -> String {
    format!("err version number={version_number}")
}

/// A payload length, or its error.
pub fn payload_len(result: Result<u16, LenError>) -> String {
    match result {
        Ok(len) => format!("ok {len}"),
        Err(error) => len_error(&error),
    }
}

pub fn ipv4_fields(header: &Ipv4Header) -> String {
    let first = format!(
        "dscp={} ecn={} total_len={} identification={} dont_fragment={} more_fragments={}",
        header.dscp,
        header.ecn,
        header.total_len,
        header.identification,
        header.dont_fragment,
        header.more_fragments
    );
    format!(
        "{first} fragment_offset={} time_to_live={} protocol={} header_checksum={} source={} \
         destination={} options={}",
        header.fragment_offset,
        header.time_to_live,
        header.protocol.0,
        header.header_checksum,
        bytes(&header.source),
        bytes(&header.destination),
        bytes(header.options.as_slice())
    )
}

pub fn ipv6_fields(header: &Ipv6Header) -> String {
    format!(
        "traffic_class={} flow_label={} payload_length={} next_header={} hop_limit={} source={} \
         destination={}",
        header.traffic_class,
        header.flow_label,
        header.payload_length,
        header.next_header.0,
        header.hop_limit,
        bytes(&header.source),
        bytes(&header.destination)
    )
}
