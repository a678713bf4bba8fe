//! The errors of IPv4 headers.

use super::{show, LenError};
use crate::err::Layer;
use crate::ffi;
use core::error::Error;
use core::fmt;

/// Why bytes that are long enough are no IPv4 header.
#[derive(Clone, Debug, PartialEq, Eq, Hash)]
pub enum HeaderError {
    /// The version field is not 4.
    UnexpectedVersion {
        /// The version field.
        version_number: u8,
    },
    /// The IHL field is below 5.
    HeaderLengthSmallerThanHeader {
        /// The IHL field, in words of 4 bytes.
        ihl: u8,
    },
}

/// Says which version or which header length there was.
impl fmt::Display for HeaderError {
    fn fmt(&self, f: &mut fmt::Formatter<'_>) -> fmt::Result {
        let (kind, number) = match self {
            HeaderError::UnexpectedVersion { version_number } =>
                (ffi::UNEXPECTED_VERSION, *version_number),
            HeaderError::HeaderLengthSmallerThanHeader { ihl } =>
                (ffi::HEADER_LENGTH_SMALLER_THAN_HEADER, *ihl),
        };
        show(
            &ffi::Error {
                kind,
                number: u16::from(number),
                layer: Layer::Ipv4Header.number(),
                ..ffi::Error::default()
            },
            f,
        )
    }
}

impl Error for HeaderError {}

/// Why the front of a slice is no IPv4 header.
#[derive(Clone, Debug, PartialEq, Eq, Hash)]
pub enum HeaderSliceError {
    /// The slice is shorter than the header.
    Len(LenError),
    /// The bytes are those of no IPv4 header.
    Content(HeaderError),
}

impl HeaderSliceError {
    /// The error of a header that starts `offset` bytes further on.
    pub const fn add_slice_offset(self, offset: usize) -> HeaderSliceError {
        match self {
            HeaderSliceError::Len(e) => HeaderSliceError::Len(e.add_offset(offset)),
            HeaderSliceError::Content(e) => HeaderSliceError::Content(e),
        }
    }

    // The error with these numbers, which the library gave for a slice that is no header.
    pub(crate) fn of(error: &ffi::Error) -> HeaderSliceError {
        // A version and an IHL have four bits.
        let number = error.number as u8;
        match error.kind {
            ffi::UNEXPECTED_VERSION => HeaderSliceError::Content(HeaderError::UnexpectedVersion {
                version_number: number,
            }),
            ffi::HEADER_LENGTH_SMALLER_THAN_HEADER => {
                HeaderSliceError::Content(HeaderError::HeaderLengthSmallerThanHeader { ihl: number })
            }
            _ => HeaderSliceError::Len(LenError::of(error)),
        }
    }
}

/// Says what the error that it holds says.
impl fmt::Display for HeaderSliceError {
    fn fmt(&self, f: &mut fmt::Formatter<'_>) -> fmt::Result {
        match self {
            HeaderSliceError::Len(e) => e.fmt(f),
            HeaderSliceError::Content(e) => e.fmt(f),
        }
    }
}

impl Error for HeaderSliceError {
    fn source(&self) -> Option<&(dyn Error + 'static)> {
        match self {
            HeaderSliceError::Len(e) => Some(e),
            HeaderSliceError::Content(e) => Some(e),
        }
    }
}

/// A length that IPv4 options cannot have: above 40 bytes, or no multiple of 4.
#[derive(Clone, Debug, PartialEq, Eq, Hash)]
pub struct BadOptionsLen {
    /// The length that was refused, in bytes.
    pub bad_len: usize,
}

/// Says which length was refused.
impl fmt::Display for BadOptionsLen {
    fn fmt(&self, f: &mut fmt::Formatter<'_>) -> fmt::Result {
        show(
            &ffi::Error {
                kind: ffi::BAD_OPTIONS_LEN,
                len: self.bad_len,
                ..ffi::Error::default()
            },
            f,
        )
    }
}

impl Error for BadOptionsLen {}
