//! What several tests use.
#![allow(dead_code)]

use etherparse_proved::err::{Layer, LenError};
use etherparse_proved::LenSource;

/// The error of a slice that is too short.
pub fn len_error(
    layer: Layer,
    required_len: usize,
    len: usize,
    layer_start_offset: usize,
) -> LenError {
    LenError {
        required_len,
        len,
        len_source: LenSource::Slice,
        layer,
        layer_start_offset,
    }
}

/// What the error that caused this one says.
pub fn cause(error: &dyn std::error::Error) -> Option<String> {
    error.source().map(|cause| cause.to_string())
}

/// The bytes that hexadecimal digits spell, with spaces between them.
pub fn bytes_of(digits: &str) -> Vec<u8> {
    let digits: Vec<u8> = digits.bytes().filter(|digit| *digit != b' ').collect();
    let pair = |pair: &[u8]| u8::from_str_radix(std::str::from_utf8(pair).unwrap(), 16).unwrap();
    digits.chunks(2).map(pair).collect()
}
