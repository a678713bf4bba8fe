//! The errors of TCP headers.

use super::{show, Layer};
use crate::ffi;
use core::error::Error;
use core::fmt;

/// Why bytes that are long enough are no TCP header.
#[derive(Clone, Debug, PartialEq, Eq, Hash)]
pub enum HeaderError {
    /// The data offset is below 5.
    DataOffsetTooSmall {
        /// The data offset, in words of 4 bytes.
        data_offset: u8,
    },
}

/// Says which data offset there was.
impl fmt::Display for HeaderError {
    fn fmt(&self, f: &mut fmt::Formatter<'_>) -> fmt::Result {
        let HeaderError::DataOffsetTooSmall { data_offset } = self;
        show(
            &ffi::Error {
                kind: ffi::DATA_OFFSET,
                number: u16::from(*data_offset),
                layer: Layer::TcpHeader.number(),
                ..ffi::Error::default()
            },
            f,
        )
    }
}

impl Error for HeaderError {}
