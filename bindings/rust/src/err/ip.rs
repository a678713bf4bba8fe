//! The errors of IP packets of either version.

use super::{show, Layer};
use crate::ffi;
use core::error::Error;
use core::fmt;

/// Why bytes are no IP packet.
#[derive(Clone, Debug, PartialEq, Eq, Hash)]
pub enum HeaderError {
    /// The version is neither 4 nor 6.
    UnsupportedIpVersion {
        /// The version.
        version_number: u8,
    },
}

/// Says which version there was.
impl fmt::Display for HeaderError {
    fn fmt(&self, f: &mut fmt::Formatter<'_>) -> fmt::Result {
        let HeaderError::UnsupportedIpVersion { version_number } = self;
        show(
            &ffi::Error {
                kind: ffi::UNEXPECTED_VERSION,
                number: u16::from(*version_number),
                layer: Layer::IpHeader.number(),
                ..ffi::Error::default()
            },
            f,
        )
    }
}

impl Error for HeaderError {}
