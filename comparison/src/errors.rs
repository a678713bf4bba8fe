//! Errors: their texts, their equality, and what is added to their offsets; layers and value types.

use crate::arguments::{self, ipv4_error, ipv6_error, layer, len_error, space_error, value_type};
use crate::shown;
use crate::walks::{shown_too_many, too_many_text, TooMany};
use etherparse::err::ip::IpDscpUnknownValueError;
use etherparse::err::ipv4::BadOptionsLen;
use etherparse::err::{ipv4, ipv6, LenError, ValueTooBigError};
use std::fmt::{Debug, Display};
use std::hash::Hash;
use std::str::FromStr;

/// The error of a walk up to a limit, which the crate does not have.
#[derive(Clone, PartialEq)]
enum ChainError {
    Len(LenError),
    TooMany(TooMany),
}

fn chain_error(words: &[&str]) -> Option<ChainError> {
    match words {
        ["len", error @ ..] => Some(ChainError::Len(len_error(error)?)),
        ["too_many", limit, next_header, offset] => Some(ChainError::TooMany(TooMany {
            limit: arguments::number(limit)?,
            next_header: arguments::number(next_header)?,
            layer_start_offset: arguments::number(offset)?,
        })),
        _ => None,
    }
}

pub fn answer_text(call: &str, words: &[&str]) -> Option<String> {
    match (call, words) {
        ("len", error) => Some(len_error(error)?.to_string()),
        ("swse", error) => Some(space_error(error)?.to_string()),
        ("too_big", [width, error @ ..]) => match *width {
            "u8" => too_big_text::<u8>(error),
            "u16" => too_big_text::<u16>(error),
            "u32" => too_big_text::<u32>(error),
            "usize" => too_big_text::<usize>(error),
            _ => None,
        },
        ("unknown", [value]) => {
            let value = arguments::number(value)?;
            Some(IpDscpUnknownValueError { value }.to_string())
        }
        ("bad_options", [bad_len]) => {
            let bad_len = arguments::number(bad_len)?;
            Some(BadOptionsLen { bad_len }.to_string())
        }
        ("v4.version" | "v4.ihl", [number]) => {
            match ipv4_error(&[call.strip_prefix("v4.")?, number])? {
                ipv4::HeaderSliceError::Content(error) => Some(error.to_string()),
                ipv4::HeaderSliceError::Len(_) => None,
            }
        }
        ("v6.version", [number]) => match ipv6_error(&["version", number])? {
            ipv6::HeaderSliceError::Content(error) => Some(error.to_string()),
            ipv6::HeaderSliceError::Len(_) => None,
        },
        ("v4", error) => Some(ipv4_error(error)?.to_string()),
        ("v6", error) => Some(ipv6_error(error)?.to_string()),
        ("chain", error) => Some(match chain_error(error)? {
            ChainError::Len(error) => error.to_string(),
            ChainError::TooMany(error) => too_many_text(&error),
        }),
        _ => None,
    }
}

fn too_big_error<T>(words: &[&str]) -> Option<ValueTooBigError<T>>
where
    T: FromStr + Sized + Clone + Display + Debug + Eq + PartialEq + Hash,
{
    let [actual, max_allowed, of] = words else { return None };
    Some(ValueTooBigError {
        actual: arguments::number(actual)?,
        max_allowed: arguments::number(max_allowed)?,
        value_type: value_type(of)?,
    })
}

fn too_big_text<T>(words: &[&str]) -> Option<String>
where
    T: FromStr + Sized + Clone + Display + Debug + Eq + PartialEq + Hash,
{
    Some(too_big_error::<T>(words)?.to_string())
}

fn too_big_equality<T>(a: &[&str], b: &[&str]) -> Option<String>
where
    T: FromStr + Sized + Clone + Display + Debug + Eq + PartialEq + Hash,
{
    Some(shown::equality(&too_big_error::<T>(a)?, &too_big_error::<T>(b)?))
}

/// An offset is added, as far as the sum fits.
pub fn answer_offset(call: &str, words: &[&str]) -> Option<String> {
    let [offset, error @ ..] = words else { return None };
    let offset: usize = arguments::number(offset)?;
    // The sum of the offsets of an error of this length.
    let fits = |error: &LenError| error.layer_start_offset.checked_add(offset);
    match call {
        "len" => {
            let error = len_error(error)?;
            fits(&error)?;
            Some(shown::len_error(&error.add_offset(offset)))
        }
        "v4" => {
            let error = ipv4_error(error)?;
            if let ipv4::HeaderSliceError::Len(error) = &error {
                fits(error)?;
            }
            Some(shown::ipv4_error(&error.add_slice_offset(offset)))
        }
        "v6" => {
            let error = ipv6_error(error)?;
            if let ipv6::HeaderSliceError::Len(error) = &error {
                fits(error)?;
            }
            Some(shown::ipv6_error(&error.add_slice_offset(offset)))
        }
        "chain" => match chain_error(error)? {
            ChainError::Len(error) => {
                fits(&error)?;
                Some(shown::len_error(&error.add_offset(offset)))
            }
            ChainError::TooMany(mut error) => {
                error.layer_start_offset = error.layer_start_offset.checked_add(offset)?;
                Some(shown_too_many(&error))
            }
        },
        _ => None,
    }
}

pub fn answer_equality(call: &str, words: &[&str]) -> Option<String> {
    let (a, b) = arguments::halves(words)?;
    match (call, a) {
        ("len", _) => Some(shown::equality(&len_error(a)?, &len_error(b)?)),
        ("swse", _) => Some(shown::equality(&space_error(a)?, &space_error(b)?)),
        ("v4", _) => Some(shown::equality(&ipv4_error(a)?, &ipv4_error(b)?)),
        ("v6", _) => Some(shown::equality(&ipv6_error(a)?, &ipv6_error(b)?)),
        ("chain", _) => {
            let equal = chain_error(a)? == chain_error(b)?;
            Some(format!("eq={equal}"))
        }
        ("too_big", [width, a @ ..]) => match *width {
            "u8" => too_big_equality::<u8>(a, b),
            "u16" => too_big_equality::<u16>(a, b),
            "u32" => too_big_equality::<u32>(a, b),
            "usize" => too_big_equality::<usize>(a, b),
            _ => None,
        },
        _ => None,
    }
}

/// Layers and value types.
pub fn answer_kind(operation: &str, words: &[&str]) -> Option<String> {
    match (operation, words) {
        ("layer", [name]) => {
            let layer = layer(name)?;
            Some(format!("{} ; {layer}", layer.error_title()))
        }
        ("layer.cmp", [a, b]) => Some(shown::comparison(&layer(a)?, &layer(b)?)),
        ("value_type", [name]) => Some(value_type(name)?.to_string()),
        ("value_type.cmp", [a, b]) => Some(shown::comparison(&value_type(a)?, &value_type(b)?)),
        _ => None,
    }
}
