//! Why a frame is not read, or not read further.

use super::{ip, ipv4, show, tcp, LenError};
use crate::ffi;
use core::error::Error;
use core::fmt;

/// Why a frame is not read, or not read further. Each place counts from the start of what was
/// read.
#[derive(Clone, Debug, PartialEq, Eq, Hash)]
pub enum SliceError {
    /// A layer needs more bytes than there are, or has a length below that of its header.
    Len(LenError),
    /// There is an IP packet of neither version.
    Ip(ip::HeaderError),
    /// The bytes are those of no IPv4 header.
    Ipv4(ipv4::HeaderError),
    /// The bytes are those of no TCP header.
    Tcp(tcp::HeaderError),
    /// Frames of this link type are not read. The crate `etherparse` has no such error.
    LinkType {
        /// The number of the link type.
        link_type: u32,
    },
}

impl SliceError {
    // The error with these numbers, which the library gave for a frame; `None` if it is none.
    pub(crate) fn of(error: &ffi::Error) -> Option<SliceError> {
        // A version, an IHL and a data offset have four bits.
        let number = error.number as u8;
        Some(match error.kind {
            ffi::OK => return None,
            ffi::UNEXPECTED_VERSION => SliceError::Ip(ip::HeaderError::UnsupportedIpVersion {
                version_number: number,
            }),
            ffi::HEADER_LENGTH_SMALLER_THAN_HEADER => {
                SliceError::Ipv4(ipv4::HeaderError::HeaderLengthSmallerThanHeader { ihl: number })
            }
            ffi::DATA_OFFSET => SliceError::Tcp(tcp::HeaderError::DataOffsetTooSmall {
                data_offset: number,
            }),
            ffi::LINK_TYPE => SliceError::LinkType {
                // The number of a link type that was passed, which has 32 bits.
                link_type: error.len as u32,
            },
            _ => SliceError::Len(LenError::of(error)),
        })
    }
}

/// Says what the error that it holds says, or which link type is not read.
impl fmt::Display for SliceError {
    fn fmt(&self, f: &mut fmt::Formatter<'_>) -> fmt::Result {
        match self {
            SliceError::Len(e) => e.fmt(f),
            SliceError::Ip(e) => e.fmt(f),
            SliceError::Ipv4(e) => e.fmt(f),
            SliceError::Tcp(e) => e.fmt(f),
            SliceError::LinkType { link_type } => show(
                &ffi::Error {
                    kind: ffi::LINK_TYPE,
                    len: *link_type as usize,
                    ..ffi::Error::default()
                },
                f,
            ),
        }
    }
}

impl Error for SliceError {
    fn source(&self) -> Option<&(dyn Error + 'static)> {
        match self {
            SliceError::Len(e) => Some(e),
            SliceError::Ip(e) => Some(e),
            SliceError::Ipv4(e) => Some(e),
            SliceError::Tcp(e) => Some(e),
            SliceError::LinkType { .. } => None,
        }
    }
}

impl From<LenError> for SliceError {
    fn from(error: LenError) -> SliceError {
        SliceError::Len(error)
    }
}
