//! IPv6 headers and their views.

use crate::{arguments, shown};
use etherparse::{Ipv6Header, Ipv6HeaderSlice};

pub fn answer(call: &str, words: &[&str]) -> Option<String> {
    match (call, words) {
        ("view" | "view_header", [bytes]) => viewed(call, &arguments::bytes(bytes)?),
        ("head" | "read", [bytes]) => read(call, &arguments::bytes(bytes)?),
        ("info", header) => Some(info(&arguments::ipv6_header(header)?)),
        ("set_payload_length" | "set_ecn" | "set_dscp", [value, header @ ..]) => {
            set(call, value, arguments::ipv6_header(header)?)
        }
        ("eq", headers) if headers.len() == 14 => {
            let (a, b) = headers.split_at(7);
            Some(shown::equality(&arguments::ipv6_header(a)?, &arguments::ipv6_header(b)?))
        }
        ("view_eq", [a, b]) => {
            let (a, b) = (arguments::bytes(a)?, arguments::bytes(b)?);
            let (a, b) = (Ipv6HeaderSlice::from_slice(&a), Ipv6HeaderSlice::from_slice(&b));
            Some(shown::equality(&a.ok()?, &b.ok()?))
        }
        _ => None,
    }
}

fn viewed(call: &str, bytes: &[u8]) -> Option<String> {
    Some(match Ipv6HeaderSlice::from_slice(bytes) {
        Ok(view) if call == "view" => getters(&view),
        Ok(view) => format!("ok {}", shown::ipv6_fields(&view.to_header())),
        Err(error) => shown::ipv6_error(&error),
    })
}

fn getters(view: &Ipv6HeaderSlice) -> String {
    let first = format!(
        "ok slice={} version={} traffic_class={} dscp={} ecn={}",
        shown::bytes(view.slice()),
        view.version(),
        view.traffic_class(),
        view.dscp(),
        view.ecn()
    );
    format!(
        "{first} flow_label={} payload_length={} next_header={} hop_limit={} source={} \
         destination={} header_len={}",
        view.flow_label(),
        view.payload_length(),
        view.next_header().0,
        view.hop_limit(),
        shown::bytes(&view.source()),
        shown::bytes(&view.destination()),
        view.header_len()
    )
}

#[allow(deprecated)]
fn read(call: &str, bytes: &[u8]) -> Option<String> {
    let result = match call {
        "head" => Ipv6Header::from_slice(bytes),
        _ => Ipv6Header::read_from_slice(bytes),
    };
    Some(match result {
        Ok((header, rest)) => format!(
            "ok {} rest={} bytes={}",
            shown::ipv6_fields(&header),
            shown::bytes(rest),
            shown::bytes(&header.to_bytes())
        ),
        Err(error) => shown::ipv6_error(&error),
    })
}

fn info(header: &Ipv6Header) -> String {
    format!(
        "dscp={} ecn={} header_len={} bytes={}",
        header.dscp(),
        header.ecn(),
        header.header_len(),
        shown::bytes(&header.to_bytes())
    )
}

// What a setter says, and the header afterwards.
fn set(call: &str, value: &str, mut header: Ipv6Header) -> Option<String> {
    let mut said = "ok".to_string();
    match call {
        "set_payload_length" => {
            if let Err(error) = header.set_payload_length(arguments::number(value)?) {
                said = shown::too_big(&error);
            }
        }
        "set_ecn" => header.set_ecn(arguments::ecn(value)?),
        _ => header.set_dscp(arguments::dscp(value)?),
    }
    Some(format!("{said} ; {}", shown::ipv6_fields(&header)))
}
