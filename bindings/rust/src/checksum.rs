//! Checksums of the internet protocols (RFC 1071), and updates of them (RFC 1624).
//!
//! A sum has the packet's first byte as its low byte, and so has its complement: `to_le_bytes`
//! gives the two bytes in the order of the packet. An update takes and answers a checksum as
//! `header_checksum` is, a number whose high byte the packet has first.

use crate::{ffi, parts};

macro_rules! sums {
    ($name:ident, $sum:ty, $doc:literal, $add_slice:ident, $add_slices:ident,
     $ones_complement:ident, $ones_complement_with_no_zero:ident, $checksum:ident) => {
        #[doc = $doc]
        pub mod $name {
            use crate::{ffi, parts};

            /// Adds the words of a slice to a sum, which begins at 0. An odd last byte is a word
            /// with a byte 0 behind it.
            pub fn add_slice(start_sum: $sum, slice: &[u8]) -> $sum {
                let (at, len) = parts(slice);
                // SAFETY: the pointer and the length are those of one slice.
                unsafe { ffi::$add_slice(start_sum, at, len) }
            }

            /// The sum of all pieces, from 0. An odd piece is padded by itself.
            pub fn add_slices<const N: usize>(pieces: &[&[u8]; N]) -> $sum {
                let pieces = pieces.map(|piece| {
                    let (at, len) = parts(piece);
                    ffi::Slice { at, len }
                });
                // SAFETY: the array has N pieces, each of which is a slice that lives on.
                unsafe { ffi::$add_slices(pieces.as_ptr(), N) }
            }

            /// The checksum of what was summed, its low byte first in a packet: 0 where the words
            /// sum to all ones.
            pub fn ones_complement(sum: $sum) -> u16 {
                // SAFETY: a number alone is passed.
                unsafe { ffi::$ones_complement(sum) }
            }

            /// The same with 0xffff in place of 0, as UDP has it (RFC 768).
            pub fn ones_complement_with_no_zero(sum: $sum) -> u16 {
                // SAFETY: a number alone is passed.
                unsafe { ffi::$ones_complement_with_no_zero(sum) }
            }

            /// The checksum of a slice after what was summed, in one call.
            pub fn checksum(start_sum: $sum, slice: &[u8]) -> u16 {
                let (at, len) = parts(slice);
                // SAFETY: the pointer and the length are those of one slice.
                unsafe { ffi::$checksum(start_sum, at, len) }
            }
        }
    };
}

sums!(
    u64_16bit_word,
    u64,
    "Sums in 64 bits.",
    etherparse_u64_16bit_word_add_slice,
    etherparse_u64_16bit_word_add_slices,
    etherparse_u64_16bit_word_ones_complement,
    etherparse_u64_16bit_word_ones_complement_with_no_zero,
    etherparse_u64_16bit_word_checksum
);
sums!(
    u32_16bit_word,
    u32,
    "Sums in 32 bits.",
    etherparse_u32_16bit_word_add_slice,
    etherparse_u32_16bit_word_add_slices,
    etherparse_u32_16bit_word_ones_complement,
    etherparse_u32_16bit_word_ones_complement_with_no_zero,
    etherparse_u32_16bit_word_checksum
);

/// The checksum after one of the words that it covers was changed from `old` to `new`, both as they
/// stand in the packet.
pub fn update_2bytes(checksum: u16, old: [u8; 2], new: [u8; 2]) -> u16 {
    let (old, new) = (u16::from_be_bytes(old), u16::from_be_bytes(new));
    // SAFETY: numbers alone are passed.
    unsafe { ffi::etherparse_update_2bytes(checksum, old, new) }
}

/// The same after four bytes, as an IPv4 address, were changed at an even place.
pub fn update_4bytes(checksum: u16, old: [u8; 4], new: [u8; 4]) -> u16 {
    // SAFETY: both references are to four bytes.
    unsafe { ffi::etherparse_update_4bytes(checksum, &old, &new) }
}

/// The same after sixteen bytes, as an IPv6 address, were changed at an even place.
pub fn update_16bytes(checksum: u16, old: [u8; 16], new: [u8; 16]) -> u16 {
    // SAFETY: both references are to sixteen bytes.
    unsafe { ffi::etherparse_update_16bytes(checksum, &old, &new) }
}

/// The checksum of a slice as a number whose high byte the packet has first, as `header_checksum`
/// is.
pub fn checksum(slice: &[u8]) -> u16 {
    let (at, len) = parts(slice);
    // SAFETY: the pointer and the length are those of one slice.
    unsafe { ffi::etherparse_swap_bytes(ffi::etherparse_u64_16bit_word_checksum(0, at, len)) }
}
