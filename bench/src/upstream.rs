//! The Rust crate's calls, exported as the proved library exports its own: one `extern "C"` function each. It is built twice:
//! with the Rust crate as a dependency, and with both of them and std as one by link-time optimisation.

#[path = "../../crates/etherparse_c/include/etherparse.rs"]
mod c;
mod loops;

use c::{
    Error, Ipv4Bytes, Ipv4Fields, Ipv4HeaderChecksumAnswer, Ipv4LengthsAnswer, Ipv4ReadAnswer, Ipv4ViewAnswer,
    Ipv4ViewFields, Ipv6Bytes, Ipv6Fields, Ipv6ReadAnswer, Ipv6ViewAnswer, Ipv6ViewFields, Ipv6WalkAnswer, Rest,
};
use etherparse::checksum::{u32_16bit_word, u64_16bit_word};
use etherparse::err::{ipv4, ipv6, Layer, LenError};
use etherparse::{
    IpDscp, IpEcn, IpFragOffset, IpNumber, Ipv4Header, Ipv4HeaderSlice, Ipv4Options, Ipv6FlowLabel, Ipv6Header,
    Ipv6HeaderSlice,
};
use std::ptr::NonNull;
use std::slice;

const NO_ERROR: Error = Error {
    kind: c::OK,
    number: 0,
    layer: 0,
    required_len: 0,
    len: 0,
    layer_start_offset: 0,
    limit: 0,
};

const NO_REST: Rest = Rest { offset: 0, len: 0 };

const NO_IPV4_FIELDS: Ipv4Fields = Ipv4Fields {
    dscp: 0,
    ecn: 0,
    total_len: 0,
    identification: 0,
    dont_fragment: false,
    more_fragments: false,
    fragment_offset: 0,
    time_to_live: 0,
    protocol: 0,
    header_checksum: 0,
    source: [0; 4],
    destination: [0; 4],
    options_len: 0,
    options: [0; 40],
};

const NO_IPV4_VIEW: Ipv4ViewFields = Ipv4ViewFields {
    ihl: 0,
    dscp: 0,
    ecn: 0,
    dont_fragment: false,
    more_fragments: false,
    is_fragmenting_payload: false,
    time_to_live: 0,
    protocol: 0,
    total_len: 0,
    identification: 0,
    fragment_offset: 0,
    header_checksum: 0,
    source: [0; 4],
    destination: [0; 4],
};

const NO_IPV6_FIELDS: Ipv6Fields = Ipv6Fields {
    flow_label: 0,
    payload_length: 0,
    traffic_class: 0,
    next_header: 0,
    hop_limit: 0,
    source: [0; 16],
    destination: [0; 16],
};

const NO_IPV6_VIEW: Ipv6ViewFields = Ipv6ViewFields {
    flow_label: 0,
    payload_length: 0,
    traffic_class: 0,
    dscp: 0,
    ecn: 0,
    next_header: 0,
    hop_limit: 0,
    source: [0; 16],
    destination: [0; 16],
};

// As an export of the proved library takes a slice: a null pointer with a length of 0 is the empty one.
#[inline(always)]
unsafe fn slice_of<'a>(at: *const u8, len: usize) -> &'a [u8] {
    let at = if at.is_null() { NonNull::<u8>::dangling().as_ptr().cast_const() } else { at };
    slice::from_raw_parts(at, len)
}

/// # Safety
///
/// `at` points to `len` bytes, or `len` is 0.
#[no_mangle]
pub unsafe extern "C" fn upstream_u64_16bit_word_add_slice(start_sum: u64, at: *const u8, len: usize) -> u64 {
    u64_16bit_word::add_slice(start_sum, slice_of(at, len))
}

#[no_mangle]
pub extern "C" fn upstream_u64_16bit_word_ones_complement(sum: u64) -> u16 {
    u64_16bit_word::ones_complement(sum)
}

/// # Safety
///
/// `at` points to `len` bytes, or `len` is 0.
#[no_mangle]
pub unsafe extern "C" fn upstream_u64_16bit_word_checksum(start_sum: u64, at: *const u8, len: usize) -> u16 {
    let bytes = slice_of(at, len);
    u64_16bit_word::ones_complement(u64_16bit_word::add_slice(start_sum, bytes))
}

/// # Safety
///
/// `at` points to `len` bytes, or `len` is 0.
#[no_mangle]
pub unsafe extern "C" fn upstream_u32_16bit_word_add_slice(start_sum: u32, at: *const u8, len: usize) -> u32 {
    u32_16bit_word::add_slice(start_sum, slice_of(at, len))
}

#[no_mangle]
pub extern "C" fn upstream_u32_16bit_word_ones_complement(sum: u32) -> u16 {
    u32_16bit_word::ones_complement(sum)
}

/// # Safety
///
/// `at` points to `len` bytes, or `len` is 0.
#[no_mangle]
pub unsafe extern "C" fn upstream_u32_16bit_word_checksum(start_sum: u32, at: *const u8, len: usize) -> u16 {
    let bytes = slice_of(at, len);
    u32_16bit_word::ones_complement(u32_16bit_word::add_slice(start_sum, bytes))
}

/// The header checksum of these fields, and whether all of them are in their ranges.
#[no_mangle]
pub extern "C" fn upstream_ipv4_header_checksum(fields: &Ipv4Fields) -> Ipv4HeaderChecksumAnswer {
    match header_of(fields) {
        Some(header) => Ipv4HeaderChecksumAnswer { checksum: header.calc_header_checksum(), accepted: true },
        None => Ipv4HeaderChecksumAnswer { checksum: 0, accepted: false },
    }
}

/// Sets the time to live, and computes the checksum anew, since the crate has no update; or `false` where a field is out of its
/// range.
#[no_mangle]
pub extern "C" fn upstream_ipv4_set_time_to_live(fields: &mut Ipv4Fields, time_to_live: u8) -> bool {
    match header_of(fields) {
        Some(mut header) => {
            header.time_to_live = time_to_live;
            fields.time_to_live = time_to_live;
            fields.header_checksum = header.calc_header_checksum();
            true
        }
        None => false,
    }
}

/// A header that stays as it is until the program ends, or null.
#[no_mangle]
pub extern "C" fn upstream_ipv4_header(fields: &Ipv4Fields) -> *const Ipv4Header {
    match header_of(fields) {
        Some(header) => Box::into_raw(Box::new(header)),
        None => std::ptr::null(),
    }
}

/// The header checksum of a header that is there, with nothing to be made of fields.
#[no_mangle]
pub extern "C" fn upstream_ipv4_header_checksum_of(header: &Ipv4Header) -> u16 {
    header.calc_header_checksum()
}

#[inline(always)]
fn header_of(fields: &Ipv4Fields) -> Option<Ipv4Header> {
    Some(Ipv4Header {
        dscp: IpDscp::try_new(fields.dscp).ok()?,
        ecn: IpEcn::try_new(fields.ecn).ok()?,
        total_len: fields.total_len,
        identification: fields.identification,
        dont_fragment: fields.dont_fragment,
        more_fragments: fields.more_fragments,
        fragment_offset: IpFragOffset::try_new(fields.fragment_offset).ok()?,
        time_to_live: fields.time_to_live,
        protocol: IpNumber(fields.protocol),
        header_checksum: fields.header_checksum,
        source: fields.source,
        destination: fields.destination,
        options: options_of(fields)?,
    })
}

// From an array of each length, so that no copy is of a length which is known only at run time.
#[inline(always)]
fn options_of(fields: &Ipv4Fields) -> Option<Ipv4Options> {
    macro_rules! front {
        ($len:literal) => {
            <[u8; $len]>::try_from(&fields.options[..$len]).ok()?.into()
        };
    }
    Some(match fields.options_len {
        0 => front!(0),
        4 => front!(4),
        8 => front!(8),
        12 => front!(12),
        16 => front!(16),
        20 => front!(20),
        24 => front!(24),
        28 => front!(28),
        32 => front!(32),
        36 => front!(36),
        40 => front!(40),
        _ => return None,
    })
}

/// # Safety
///
/// `at` points to `len` bytes, or `len` is 0.
#[no_mangle]
pub unsafe extern "C" fn upstream_ipv4_view(at: *const u8, len: usize) -> Ipv4ViewAnswer {
    match Ipv4HeaderSlice::from_slice(slice_of(at, len)) {
        Ok(view) => Ipv4ViewAnswer {
            error: NO_ERROR,
            rest: rest_after(view.slice().len(), len),
            view: Ipv4ViewFields {
                ihl: view.ihl(),
                dscp: view.dcp().value(),
                ecn: view.ecn().value(),
                dont_fragment: view.dont_fragment(),
                more_fragments: view.more_fragments(),
                is_fragmenting_payload: view.is_fragmenting_payload(),
                time_to_live: view.ttl(),
                protocol: view.protocol().0,
                total_len: view.total_len(),
                identification: view.identification(),
                fragment_offset: view.fragments_offset().value(),
                header_checksum: view.header_checksum(),
                source: view.source(),
                destination: view.destination(),
            },
        },
        Err(e) => Ipv4ViewAnswer { error: ipv4_error(&e), rest: NO_REST, view: NO_IPV4_VIEW },
    }
}

/// # Safety
///
/// `at` points to `len` bytes, or `len` is 0.
#[no_mangle]
pub unsafe extern "C" fn upstream_ipv4_read(at: *const u8, len: usize) -> Ipv4ReadAnswer {
    match Ipv4Header::from_slice(slice_of(at, len)) {
        Ok((header, rest)) => Ipv4ReadAnswer {
            error: NO_ERROR,
            rest: Rest { offset: len - rest.len(), len: rest.len() },
            fields: Ipv4Fields {
                dscp: header.dscp.value(),
                ecn: header.ecn.value(),
                total_len: header.total_len,
                identification: header.identification,
                dont_fragment: header.dont_fragment,
                more_fragments: header.more_fragments,
                fragment_offset: header.fragment_offset.value(),
                time_to_live: header.time_to_live,
                protocol: header.protocol.0,
                header_checksum: header.header_checksum,
                source: header.source,
                destination: header.destination,
                options_len: header.options.len_u8(),
                options: filled(header.options.as_slice()),
            },
        },
        Err(e) => Ipv4ReadAnswer { error: ipv4_error(&e), rest: NO_REST, fields: NO_IPV4_FIELDS },
    }
}

#[no_mangle]
pub extern "C" fn upstream_ipv4_write(fields: &Ipv4Fields) -> Ipv4Bytes {
    match header_of(fields) {
        Some(header) => {
            let bytes = header.to_bytes();
            Ipv4Bytes { bytes: filled(&bytes), len: bytes.len() as u8 }
        }
        None => Ipv4Bytes { bytes: [0; 60], len: 0 },
    }
}

#[no_mangle]
pub extern "C" fn upstream_ipv4_lengths(total_len: u16, options_len: u8) -> Ipv4LengthsAnswer {
    let options = match Ipv4Options::try_from(&[0; 255][..usize::from(options_len)]) {
        Ok(options) => options,
        Err(e) => {
            let error = Error { kind: c::BAD_OPTIONS_LEN, len: e.bad_len, ..NO_ERROR };
            return Ipv4LengthsAnswer { error, payload_len: 0, max_payload_len: 0, header_len: 0, ihl: 0 };
        }
    };
    let header = Ipv4Header { total_len, options, ..Default::default() };
    let (payload_len, error) = match header.payload_len() {
        Ok(len) => (len, NO_ERROR),
        Err(e) => (0, len_error(&e)),
    };
    Ipv4LengthsAnswer {
        error,
        payload_len,
        max_payload_len: header.max_payload_len(),
        header_len: header.header_len() as u8,
        ihl: header.ihl(),
    }
}

/// # Safety
///
/// `at` points to `len` bytes, or `len` is 0.
#[no_mangle]
pub unsafe extern "C" fn upstream_ipv6_view(at: *const u8, len: usize) -> Ipv6ViewAnswer {
    match Ipv6HeaderSlice::from_slice(slice_of(at, len)) {
        Ok(view) => Ipv6ViewAnswer {
            error: NO_ERROR,
            rest: rest_after(view.slice().len(), len),
            view: Ipv6ViewFields {
                flow_label: view.flow_label().value(),
                payload_length: view.payload_length(),
                traffic_class: view.traffic_class(),
                dscp: view.dscp().value(),
                ecn: view.ecn().value(),
                next_header: view.next_header().0,
                hop_limit: view.hop_limit(),
                source: view.source(),
                destination: view.destination(),
            },
        },
        Err(e) => Ipv6ViewAnswer { error: ipv6_error(&e), rest: NO_REST, view: NO_IPV6_VIEW },
    }
}

/// # Safety
///
/// `at` points to `len` bytes, or `len` is 0.
#[no_mangle]
pub unsafe extern "C" fn upstream_ipv6_read(at: *const u8, len: usize) -> Ipv6ReadAnswer {
    match Ipv6Header::from_slice(slice_of(at, len)) {
        Ok((header, rest)) => Ipv6ReadAnswer {
            error: NO_ERROR,
            rest: Rest { offset: len - rest.len(), len: rest.len() },
            fields: Ipv6Fields {
                flow_label: header.flow_label.value(),
                payload_length: header.payload_length,
                traffic_class: header.traffic_class,
                next_header: header.next_header.0,
                hop_limit: header.hop_limit,
                source: header.source,
                destination: header.destination,
            },
        },
        Err(e) => Ipv6ReadAnswer { error: ipv6_error(&e), rest: NO_REST, fields: NO_IPV6_FIELDS },
    }
}

#[no_mangle]
pub extern "C" fn upstream_ipv6_write(fields: &Ipv6Fields) -> Ipv6Bytes {
    match Ipv6FlowLabel::try_new(fields.flow_label) {
        Ok(flow_label) => {
            let header = Ipv6Header {
                traffic_class: fields.traffic_class,
                flow_label,
                payload_length: fields.payload_length,
                next_header: IpNumber(fields.next_header),
                hop_limit: fields.hop_limit,
                source: fields.source,
                destination: fields.destination,
            };
            Ipv6Bytes { bytes: header.to_bytes(), len: 40 }
        }
        Err(_) => Ipv6Bytes { bytes: [0; 40], len: 0 },
    }
}

/// # Safety
///
/// `at` points to `len` bytes, or `len` is 0.
#[no_mangle]
pub unsafe extern "C" fn upstream_ipv6_walk(at: *const u8, len: usize, next_header: u8) -> Ipv6WalkAnswer {
    let bytes = slice_of(at, len);
    match Ipv6Header::skip_all_header_extensions_in_slice(bytes, IpNumber(next_header)) {
        Ok((number, rest)) => Ipv6WalkAnswer {
            error: NO_ERROR,
            rest: Rest { offset: len - rest.len(), len: rest.len() },
            next_header: number.0,
        },
        Err(e) => Ipv6WalkAnswer { error: len_error(&e), rest: NO_REST, next_header: 0 },
    }
}

/// The walk past at most so many extension headers, which the crate has no call for.
///
/// # Safety
///
/// `at` points to `len` bytes, or `len` is 0.
#[no_mangle]
pub unsafe extern "C" fn upstream_ipv6_walk_up_to(
    at: *const u8,
    len: usize,
    next_header: u8,
    limit: usize,
) -> Ipv6WalkAnswer {
    match walk_up_to(slice_of(at, len), IpNumber(next_header), limit) {
        Ok((number, rest)) => Ipv6WalkAnswer {
            error: NO_ERROR,
            rest: Rest { offset: len - rest.len(), len: rest.len() },
            next_header: number.0,
        },
        Err(error) => Ipv6WalkAnswer { error, rest: NO_REST, next_header: 0 },
    }
}

// As a user of the crate counts: one skip after the other.
#[inline(always)]
fn walk_up_to(slice: &[u8], first: IpNumber, limit: usize) -> Result<(IpNumber, &[u8]), Error> {
    let (mut number, mut rest, mut skipped) = (first, slice, 0);
    while Ipv6Header::is_skippable_header_extension(number) {
        let offset = slice.len() - rest.len();
        if skipped == limit {
            let (number, layer) = (u16::from(number.0), c::IPV6_EXT_HEADER);
            return Err(Error { kind: c::TOO_MANY, number, layer, layer_start_offset: offset, limit, ..NO_ERROR });
        }
        match Ipv6Header::skip_header_extension_in_slice(rest, number) {
            Ok(after) => (number, rest) = after,
            Err(e) => return Err(Error { layer_start_offset: e.layer_start_offset + offset, ..len_error(&e) }),
        }
        skipped += 1;
    }
    Ok((number, rest))
}

#[inline(always)]
fn rest_after(offset: usize, len: usize) -> Rest {
    Rest { offset, len: len - offset }
}

#[inline(always)]
fn filled<const N: usize>(bytes: &[u8]) -> [u8; N] {
    let mut room = [0; N];
    room[..bytes.len()].copy_from_slice(bytes);
    room
}

fn len_error(e: &LenError) -> Error {
    Error {
        kind: c::LEN,
        layer: match e.layer {
            Layer::Ipv4Header => c::IPV4_HEADER,
            Layer::Ipv4Packet => c::IPV4_PACKET,
            Layer::Ipv6Header => c::IPV6_HEADER,
            Layer::Ipv6ExtHeader => c::IPV6_EXT_HEADER,
            _ => 0,
        },
        required_len: e.required_len,
        len: e.len,
        layer_start_offset: e.layer_start_offset,
        ..NO_ERROR
    }
}

fn ipv4_error(e: &ipv4::HeaderSliceError) -> Error {
    use ipv4::{HeaderError::*, HeaderSliceError::*};
    match e {
        Len(e) => len_error(e),
        Content(UnexpectedVersion { version_number }) => {
            Error { kind: c::UNEXPECTED_VERSION, number: u16::from(*version_number), layer: c::IPV4_HEADER, ..NO_ERROR }
        }
        Content(HeaderLengthSmallerThanHeader { ihl }) => {
            let number = u16::from(*ihl);
            Error { kind: c::HEADER_LENGTH_SMALLER_THAN_HEADER, number, layer: c::IPV4_HEADER, ..NO_ERROR }
        }
    }
}

fn ipv6_error(e: &ipv6::HeaderSliceError) -> Error {
    use ipv6::{HeaderError::*, HeaderSliceError::*};
    match e {
        Len(e) => len_error(e),
        Content(UnexpectedVersion { version_number }) => {
            Error { kind: c::UNEXPECTED_VERSION, number: u16::from(*version_number), layer: c::IPV6_HEADER, ..NO_ERROR }
        }
    }
}
