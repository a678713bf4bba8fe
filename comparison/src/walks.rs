//! Extension headers: one skip, all of them, and up to a limit.

use crate::{arguments, shown};
use etherparse::err::LenError;
use etherparse::{IpNumber, Ipv6Header};

/// How a walk up to a limit ends: as the crate's walk does, or at one header too many.
pub enum LimitedWalk<'a> {
    Ended(Result<(IpNumber, &'a [u8]), LenError>),
    TooMany(TooMany),
}

/// The number and the place of the header that is one too many.
#[derive(Clone, PartialEq)]
pub struct TooMany {
    pub limit: usize,
    pub next_header: u8,
    pub layer_start_offset: usize,
}

pub fn answer(operation: &str, words: &[&str]) -> Option<String> {
    let [bytes, number, words @ ..] = words else { return None };
    let (slice, number) = (arguments::bytes(bytes)?, arguments::ip_number(number)?);
    match (operation, words) {
        ("skip", []) => Some(shown(Ipv6Header::skip_header_extension_in_slice(&slice, number))),
        ("walk", []) => Some(walked(&slice, number)),
        ("walk.counted", []) => {
            Some(format!("{} turns={}", walked(&slice, number), turns(&slice, number)))
        }
        ("walk.limit", [limit]) => {
            Some(match walk_up_to(&slice, number, arguments::number(limit)?) {
                LimitedWalk::Ended(result) => shown(result),
                LimitedWalk::TooMany(error) => shown_too_many(&error),
            })
        }
        _ => None,
    }
}

fn walked(slice: &[u8], number: IpNumber) -> String {
    shown(Ipv6Header::skip_all_header_extensions_in_slice(slice, number))
}

fn shown(result: Result<(IpNumber, &[u8]), LenError>) -> String {
    match result {
        Ok((number, rest)) => format!("ok next={} rest={}", number.0, shown::bytes(rest)),
        Err(error) => shown::len_error(&error),
    }
}

pub fn shown_too_many(error: &TooMany) -> String {
    let TooMany { limit, next_header, layer_start_offset } = error;
    format!("err too_many limit={limit} next={next_header} offset={layer_start_offset}")
}

pub fn too_many_text(error: &TooMany) -> String {
    let TooMany { limit, next_header, layer_start_offset } = error;
    format!(
        "IPv6 Extension Header Error: More than {limit} extension header(s) ('{next_header}' \
         starts at overall parsed byte {layer_start_offset})."
    )
}

// The crate does not count: how many numbers are tested is told by its single skips.
fn turns(slice: &[u8], first: IpNumber) -> usize {
    let (mut number, mut rest, mut turns) = (first, slice, 1);
    while Ipv6Header::is_skippable_header_extension(number) {
        match Ipv6Header::skip_header_extension_in_slice(rest, number) {
            Ok(next) => (number, rest) = next,
            Err(_) => break,
        }
        turns += 1;
    }
    turns
}

/// The crate has no limit: single skips of it, as long as there are no more than `limit`.
pub fn walk_up_to(slice: &[u8], first: IpNumber, limit: usize) -> LimitedWalk<'_> {
    let (mut number, mut rest, mut headers) = (first, slice, 0);
    while Ipv6Header::is_skippable_header_extension(number) {
        let layer_start_offset = slice.len() - rest.len();
        if headers == limit {
            let next_header = number.0;
            return LimitedWalk::TooMany(TooMany { limit, next_header, layer_start_offset });
        }
        match Ipv6Header::skip_header_extension_in_slice(rest, number) {
            Ok(next) => (number, rest) = next,
            Err(error) => return LimitedWalk::Ended(Err(error.add_offset(layer_start_offset))),
        }
        headers += 1;
    }
    LimitedWalk::Ended(Ok((number, rest)))
}
