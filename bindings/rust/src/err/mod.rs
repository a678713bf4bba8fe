//! The errors, by the names of the crate `etherparse`. Each shows the text that the library has for
//! its numbers.

pub mod ip;
pub mod ipv4;
pub mod ipv6;
mod layer;
mod len_error;
pub mod packet;
pub mod tcp;
mod value_too_big_error;

pub use layer::Layer;
pub use len_error::LenError;
pub use value_too_big_error::{ValueTooBigError, ValueType};

use crate::ffi;
use core::fmt;

// Shows the text of the error with these numbers.
fn show(error: &ffi::Error, f: &mut fmt::Formatter<'_>) -> fmt::Result {
    show_text::<{ ffi::ERROR_TEXT_SIZE }>(f, |text| {
        // SAFETY: the reference is to an error, the pointer and the length are those of one slice.
        unsafe { ffi::etherparse_error_text(error, text.as_mut_ptr(), text.len()) }
    })
}

// Shows a text that a call of the library puts into a buffer with this room. The call returns how
// many bytes the text has.
pub(crate) fn show_text<const ROOM: usize>(
    f: &mut fmt::Formatter<'_>,
    put: impl FnOnce(&mut [u8]) -> usize,
) -> fmt::Result {
    let mut text = [0; ROOM];
    let len = put(&mut text);
    let text = text.get(..len).unwrap_or(&text);
    f.write_str(core::str::from_utf8(text).map_err(|_| fmt::Error)?)
}
