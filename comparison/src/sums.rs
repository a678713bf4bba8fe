//! Sums of 16-bit words, and a checksum that is updated.

use crate::{arguments, shown};
use etherparse::checksum::{u32_16bit_word, u64_16bit_word, Sum16BitWords};

pub fn answer(operation: &str, words: &[&str]) -> Option<String> {
    match (operation.split_once('.'), words) {
        (Some(("c32", call)), _) => answer_u32(call, words),
        (Some(("c64", call)), _) => answer_u64(call, words),
        (None, _) if operation == "sum" => {
            let sum = stepped(words, true)?;
            Some(folded(sum.ones_complement(), sum.to_ones_complement_with_no_zero()))
        }
        (Some(("sum", "eq")), _) => {
            let (a, b) = arguments::halves(words)?;
            Some(shown::equality(&stepped(a, false)?, &stepped(b, false)?))
        }
        (None, [checksum, old, new]) if operation == "upd" => {
            let (old, new) = (arguments::array(old)?, arguments::array(new)?);
            let (old, new) = (u16::from_be_bytes(old), u16::from_be_bytes(new));
            Some(updated(arguments::number(checksum)?, old, new).to_string())
        }
        _ => None,
    }
}

// The complement of a sum, and its form that is never 0.
fn folded(complement: u16, with_no_zero: u16) -> String {
    format!("oc={complement} nz={with_no_zero}")
}

fn answer_u32(call: &str, words: &[&str]) -> Option<String> {
    use u32_16bit_word::*;
    let fold = |sum| Some(folded(ones_complement(sum), ones_complement_with_no_zero(sum)));
    match (call, words) {
        ("add2", [start, bytes]) => {
            let sum = add_2bytes(arguments::number(start)?, arguments::array(bytes)?);
            Some(format!("sum={sum}"))
        }
        ("add4", [start, bytes]) => {
            let sum = add_4bytes(arguments::number(start)?, arguments::array(bytes)?);
            Some(format!("sum={sum}"))
        }
        ("fold", [sum]) => fold(arguments::number(sum)?),
        ("slice", [start, bytes]) => {
            fold(add_slice(arguments::number(start)?, &arguments::bytes(bytes)?))
        }
        ("slices", pieces) => {
            let mut sum = 0;
            for piece in pieces {
                sum = add_slice(sum, &arguments::bytes(piece)?);
            }
            fold(sum)
        }
        _ => None,
    }
}

fn answer_u64(call: &str, words: &[&str]) -> Option<String> {
    use u64_16bit_word::*;
    let fold = |sum| Some(folded(ones_complement(sum), ones_complement_with_no_zero(sum)));
    match (call, words) {
        ("add2", [start, bytes]) => {
            let sum = add_2bytes(arguments::number(start)?, arguments::array(bytes)?);
            Some(format!("sum={sum}"))
        }
        ("add4", [start, bytes]) => {
            let sum = add_4bytes(arguments::number(start)?, arguments::array(bytes)?);
            Some(format!("sum={sum}"))
        }
        ("add8", [start, bytes]) => {
            let sum = add_8bytes(arguments::number(start)?, arguments::array(bytes)?);
            Some(format!("sum={sum}"))
        }
        ("fold", [sum]) => fold(arguments::number(sum)?),
        ("slice", [start, bytes]) => {
            fold(add_slice(arguments::number(start)?, &arguments::bytes(bytes)?))
        }
        ("slices", pieces) => {
            let mut sum = 0;
            for piece in pieces {
                sum = add_slice(sum, &arguments::bytes(piece)?);
            }
            fold(sum)
        }
        _ => None,
    }
}

// A sum step by step. An add that is called on `&mut self` leaves that sum as it was. A slice is a
// step only where sums are folded: what is not folded of it is open.
fn stepped(steps: &[&str], with_slices: bool) -> Option<Sum16BitWords> {
    let mut sum = Sum16BitWords::new();
    for step in steps {
        let (kind, bytes) = step.split_once(':')?;
        let before = sum.clone();
        let after = match kind {
            "s" if with_slices => sum.clone().add_slice(&arguments::bytes(bytes)?),
            "2" => sum.clone().add_2bytes(arguments::array(bytes)?),
            "4" => sum.add_4bytes(arguments::array(bytes)?),
            "8" => sum.add_8bytes(arguments::array(bytes)?),
            "16" => sum.add_16bytes(arguments::array(bytes)?),
            _ => return None,
        };
        assert!(sum == before);
        sum = after;
    }
    Some(sum)
}

/// RFC 1624 section 3, equation 3, which the crate does not have: the complement of the sum of the
/// complements of the checksum and of the old word, and the new word.
pub fn updated(checksum: u16, old: u16, new: u16) -> u16 {
    let mut sum = u32::from(!checksum) + u32::from(!old) + u32::from(new);
    while sum > 0xffff {
        sum = (sum & 0xffff) + (sum >> 16);
    }
    !(sum as u16)
}
