//! The errors of IPv6 headers.

use super::{show, LenError};
use crate::err::Layer;
use crate::ffi;
use core::error::Error;
use core::fmt;

/// Why bytes that are long enough are no IPv6 header.
#[derive(Clone, Debug, PartialEq, Eq, Hash)]
pub enum HeaderError {
    /// The version field is not 6.
    UnexpectedVersion {
        /// The version field.
        version_number: u8,
    },
}

/// Says which version there was.
impl fmt::Display for HeaderError {
    fn fmt(&self, f: &mut fmt::Formatter<'_>) -> fmt::Result {
        let HeaderError::UnexpectedVersion { version_number } = self;
        show(
            &ffi::Error {
                kind: ffi::UNEXPECTED_VERSION,
                number: u16::from(*version_number),
                layer: Layer::Ipv6Header.number(),
                ..ffi::Error::default()
            },
            f,
        )
    }
}

impl Error for HeaderError {}

/// Why the front of a slice is no IPv6 header.
#[derive(Clone, Debug, PartialEq, Eq, Hash)]
pub enum HeaderSliceError {
    /// The slice is shorter than the header.
    Len(LenError),
    /// The bytes are those of no IPv6 header.
    Content(HeaderError),
}

impl HeaderSliceError {
    /// The error of a header that starts `offset` bytes further on.
    pub const fn add_slice_offset(self, offset: usize) -> HeaderSliceError {
        match self {
            HeaderSliceError::Len(e) => HeaderSliceError::Len(e.add_offset(offset)),
            HeaderSliceError::Content(e) => HeaderSliceError::Content(e),
        }
    }

    // The error with these numbers, which the library gave for a slice that is no header.
    pub(crate) fn of(error: &ffi::Error) -> HeaderSliceError {
        match error.kind {
            ffi::UNEXPECTED_VERSION => HeaderSliceError::Content(HeaderError::UnexpectedVersion {
                // A version has four bits.
                version_number: error.number as u8,
            }),
            _ => HeaderSliceError::Len(LenError::of(error)),
        }
    }
}

/// Says what the error that it holds says.
impl fmt::Display for HeaderSliceError {
    fn fmt(&self, f: &mut fmt::Formatter<'_>) -> fmt::Result {
        match self {
            HeaderSliceError::Len(e) => e.fmt(f),
            HeaderSliceError::Content(e) => e.fmt(f),
        }
    }
}

impl Error for HeaderSliceError {
    fn source(&self) -> Option<&(dyn Error + 'static)> {
        match self {
            HeaderSliceError::Len(e) => Some(e),
            HeaderSliceError::Content(e) => Some(e),
        }
    }
}

/// Why a walk past extension headers, which has a limit, found no end of their chain. The crate
/// `etherparse` has no such type.
#[derive(Clone, Debug, PartialEq, Eq, Hash)]
pub enum ChainError {
    /// A header is incomplete.
    Len(LenError),
    /// After as many headers as the limit allows comes one more.
    TooMany {
        /// The greatest number of headers that was allowed.
        limit: usize,
        /// The number of the header that is one too many.
        next_header: u8,
        /// Where that header starts, in bytes from the start of the parsed data.
        layer_start_offset: usize,
    },
}

impl ChainError {
    /// The error of a chain that starts `offset` bytes further on.
    pub const fn add_slice_offset(self, offset: usize) -> ChainError {
        match self {
            ChainError::Len(e) => ChainError::Len(e.add_offset(offset)),
            ChainError::TooMany {
                limit,
                next_header,
                layer_start_offset,
            } => ChainError::TooMany {
                limit,
                next_header,
                layer_start_offset: layer_start_offset + offset,
            },
        }
    }

    // The error with these numbers, which the library gave for a walk.
    pub(crate) fn of(error: &ffi::Error) -> ChainError {
        match error.kind {
            ffi::TOO_MANY => ChainError::TooMany {
                limit: error.limit,
                // The number of a header is a byte.
                next_header: error.number as u8,
                layer_start_offset: error.layer_start_offset,
            },
            _ => ChainError::Len(LenError::of(error)),
        }
    }
}

/// Says what a `Len` says, or how many headers were allowed and where the next one starts.
impl fmt::Display for ChainError {
    fn fmt(&self, f: &mut fmt::Formatter<'_>) -> fmt::Result {
        match self {
            ChainError::Len(e) => e.fmt(f),
            ChainError::TooMany {
                limit,
                next_header,
                layer_start_offset,
            } => show(
                &ffi::Error {
                    kind: ffi::TOO_MANY,
                    number: u16::from(*next_header),
                    layer: Layer::Ipv6ExtHeader.number(),
                    layer_start_offset: *layer_start_offset,
                    limit: *limit,
                    ..ffi::Error::default()
                },
                f,
            ),
        }
    }
}

impl Error for ChainError {
    fn source(&self) -> Option<&(dyn Error + 'static)> {
        match self {
            ChainError::Len(e) => Some(e),
            ChainError::TooMany { .. } => None,
        }
    }
}
