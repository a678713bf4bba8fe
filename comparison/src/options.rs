//! The options of an IPv4 header.

use crate::{arguments, shown};
use etherparse::Ipv4Options;

pub fn answer(call: &str, words: &[&str]) -> Option<String> {
    match (call, words) {
        ("", [bytes]) => Some(match Ipv4Options::try_from(&arguments::bytes(bytes)?[..]) {
            Ok(options) => held(&options),
            Err(error) => shown::bad_options(&error),
        }),
        ("arr", [bytes]) => Some(held(&from_array(&arguments::bytes(bytes)?)?)),
        ("set", [bytes, index, value]) => {
            let mut options = arguments::options(bytes)?;
            let index: usize = arguments::number(index)?;
            *options.as_mut_slice().get_mut(index)? = arguments::number(value)?;
            Some(held(&options))
        }
        ("cmp", [a, b]) => {
            Some(shown::comparison(&arguments::options(a)?, &arguments::options(b)?))
        }
        _ => None,
    }
}

fn held(options: &Ipv4Options) -> String {
    format!(
        "ok len={} len_u8={} empty={} slice={}",
        options.len(),
        options.len_u8(),
        options.is_empty(),
        shown::bytes(options.as_slice())
    )
}

// By the `From` of the array of this length.
fn from_array(bytes: &[u8]) -> Option<Ipv4Options> {
    macro_rules! by_length {
        ($($length:literal)*) => {
            match bytes.len() {
                $($length => <[u8; $length]>::try_from(bytes).ok()?.into(),)*
                _ => return None,
            }
        };
    }
    Some(by_length!(0 4 8 12 16 20 24 28 32 36 40))
}
