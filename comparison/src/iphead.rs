//! The program `iphead`, after its description in docs/SPECIFICATION.md, by the crate's calls.

use crate::walks::{self, too_many_text, LimitedWalk};
use crate::{arguments, shown};
use etherparse::checksum::u64_16bit_word::{add_slice, ones_complement};
use etherparse::{Ipv4HeaderSlice, Ipv6Header};

const MAX_DIGITS: usize = 4096;
const MAX_INPUT: usize = 65536;
const MAX_HEADERS: usize = 32;

/// How it ends: the number is the exit code.
#[derive(Clone, Copy)]
enum Status {
    Done = 0,
    Refused = 1,
    BadInput = 2,
}

/// The status and all lines, each line end as `\n`.
pub fn answer(words: &[&str]) -> Option<String> {
    let [input] = words else { return None };
    let (lines, status) = run(&arguments::bytes(input)?);
    let text: String = lines.iter().map(|line| format!("{line}\\n")).collect();
    Some(format!("status={} out={text}", status as u8))
}

fn run(input: &[u8]) -> (Vec<String>, Status) {
    let digits: Vec<u8> = input.iter().copied().filter(|byte| !b" \t\r\n".contains(byte)).collect();
    if digits.len() > MAX_DIGITS || input.len() > MAX_INPUT {
        return (vec!["error: input is too long".to_string()], Status::BadInput);
    }
    let lower_case = String::from_utf8(digits.to_ascii_lowercase()).ok();
    let packet = match lower_case.as_deref() {
        Some("") => Some(Vec::new()),
        Some("-") | None => None,
        Some(digits) => arguments::bytes(digits),
    };
    match packet {
        Some(packet) if packet.first().is_some_and(|first| first >> 4 == 6) => ipv6_lines(&packet),
        Some(packet) => ipv4_lines(&packet),
        None => (vec!["error: input is not hex".to_string()], Status::BadInput),
    }
}

fn ipv6_lines(packet: &[u8]) -> (Vec<String>, Status) {
    let (header, rest) = match Ipv6Header::from_slice(packet) {
        Ok(found) => found,
        Err(error) => return (vec![format!("error: {error}")], Status::Refused),
    };
    let mut lines = vec![
        "version 6".to_string(),
        format!("traffic_class {}", header.traffic_class),
        format!("flow_label {}", header.flow_label),
        format!("payload_length {}", header.payload_length),
        format!("next_header {}", header.next_header.0),
        format!("hop_limit {}", header.hop_limit),
        format!("source {}", shown::bytes(&header.source)),
        format!("destination {}", shown::bytes(&header.destination)),
    ];
    match walks::walk_up_to(rest, header.next_header, MAX_HEADERS) {
        LimitedWalk::Ended(Ok((upper, payload))) => {
            lines.push(format!("upper {}", upper.0));
            lines.push(format!("place {}", packet.len() - payload.len()));
            lines.push(format!("rest {}", payload.len()));
            return (lines, Status::Done);
        }
        LimitedWalk::Ended(Err(error)) => {
            lines.push(format!("error: {}", error.add_offset(Ipv6Header::LEN)));
        }
        LimitedWalk::TooMany(mut error) => {
            error.layer_start_offset += Ipv6Header::LEN;
            lines.push(format!("error: {}", too_many_text(&error)));
        }
    }
    (lines, Status::Refused)
}

fn ipv4_lines(packet: &[u8]) -> (Vec<String>, Status) {
    let view = match Ipv4HeaderSlice::from_slice(packet) {
        Ok(view) => view,
        Err(error) => return (vec![format!("error: {error}")], Status::Refused),
    };
    let is_good = ones_complement(add_slice(0, view.slice())) == 0;
    let lines = vec![
        "version 4".to_string(),
        format!("ihl {}", view.ihl()),
        format!("dscp {}", view.dcp()),
        format!("ecn {}", view.ecn()),
        format!("total_len {}", view.total_len()),
        format!("identification {}", view.identification()),
        format!("dont_fragment {}", view.dont_fragment()),
        format!("more_fragments {}", view.more_fragments()),
        format!("fragment_offset {}", view.fragments_offset()),
        format!("time_to_live {}", view.ttl()),
        format!("protocol {}", view.protocol().0),
        format!("header_checksum {:04x}", view.header_checksum()),
        format!("source {}", with_dots(view.source())),
        format!("destination {}", with_dots(view.destination())),
        format!("options {}", shown::bytes(view.options())),
        format!("computed {:04x}", view.to_header().calc_header_checksum()),
        format!("sum {}", if is_good { "good" } else { "bad" }),
        format!("rest {}", packet.len() - view.slice().len()),
    ];
    (lines, Status::Done)
}

fn with_dots(address: [u8; 4]) -> String {
    address.map(|byte| byte.to_string()).join(".")
}
