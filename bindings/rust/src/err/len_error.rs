use super::{show, Layer};
use crate::{ffi, LenSource};
use core::error::Error;
use core::fmt;

/// A length below the one that a layer requires.
#[derive(Clone, Debug, PartialEq, Eq, Hash)]
pub struct LenError {
    /// The length that is required, in bytes.
    pub required_len: usize,
    /// The length that there is, in bytes.
    pub len: usize,
    /// Where `len` came from.
    pub len_source: LenSource,
    /// The layer that the length is about.
    pub layer: Layer,
    /// Where the layer starts, in bytes from the start of the parsed data.
    pub layer_start_offset: usize,
}

impl LenError {
    /// The error of the same layer in data that starts `offset` bytes earlier.
    pub const fn add_offset(self, offset: usize) -> LenError {
        LenError {
            layer_start_offset: self.layer_start_offset + offset,
            ..self
        }
    }

    // The error with these numbers, whose kind is a length.
    pub(crate) fn of(error: &ffi::Error) -> LenError {
        LenError {
            required_len: error.required_len,
            len: error.len,
            len_source: LenSource::of(error.number),
            layer: Layer::of(error.layer),
            layer_start_offset: error.layer_start_offset,
        }
    }

    fn numbers(&self) -> ffi::Error {
        ffi::Error {
            kind: ffi::LEN,
            number: self.len_source.number(),
            layer: self.layer.number(),
            required_len: self.required_len,
            len: self.len,
            layer_start_offset: self.layer_start_offset,
            ..ffi::Error::default()
        }
    }
}

/// Says what was needed, what was there and, unless the layer starts at byte 0, where it starts. An
/// error whose `len` is not below `required_len`, which no call gives, has the empty text.
impl fmt::Display for LenError {
    fn fmt(&self, f: &mut fmt::Formatter<'_>) -> fmt::Result {
        show(&self.numbers(), f)
    }
}

impl Error for LenError {}
