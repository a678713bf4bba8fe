//! IPv4 headers and their views.

use crate::{arguments, shown, sums};
use etherparse::{Ipv4Header, Ipv4HeaderSlice};

pub fn answer(call: &str, words: &[&str]) -> Option<String> {
    match (call, words) {
        ("view" | "view_header", [bytes]) => viewed(call, &arguments::bytes(bytes)?),
        ("head" | "read", [bytes]) => read(call, &arguments::bytes(bytes)?),
        ("info", header) => Some(info(&arguments::ipv4_header(header)?)),
        ("new", [payload_len, time_to_live, protocol, source, destination]) => {
            let result = Ipv4Header::new(
                arguments::number(payload_len)?,
                arguments::number(time_to_live)?,
                arguments::ip_number(protocol)?,
                arguments::array(source)?,
                arguments::array(destination)?,
            );
            Some(match result {
                Ok(header) => format!("ok {}", shown::ipv4_fields(&header)),
                Err(error) => shown::too_big(&error),
            })
        }
        ("set_payload_len" | "set_options" | "set_ttl", [value, header @ ..]) => {
            set(call, value, arguments::ipv4_header(header)?)
        }
        ("eq", headers) if headers.len() == 26 => {
            let (a, b) = headers.split_at(13);
            Some(shown::equality(&arguments::ipv4_header(a)?, &arguments::ipv4_header(b)?))
        }
        ("view_eq", [a, b]) => {
            let (a, b) = (arguments::bytes(a)?, arguments::bytes(b)?);
            let (a, b) = (Ipv4HeaderSlice::from_slice(&a), Ipv4HeaderSlice::from_slice(&b));
            Some(shown::equality(&a.ok()?, &b.ok()?))
        }
        _ => None,
    }
}

fn viewed(call: &str, bytes: &[u8]) -> Option<String> {
    Some(match Ipv4HeaderSlice::from_slice(bytes) {
        Ok(view) if call == "view" => getters(&view),
        Ok(view) => format!("ok {}", shown::ipv4_fields(&view.to_header())),
        Err(error) => shown::ipv4_error(&error),
    })
}

fn getters(view: &Ipv4HeaderSlice) -> String {
    let by_getters = Ipv4Header {
        dscp: view.dcp(),
        ecn: view.ecn(),
        total_len: view.total_len(),
        identification: view.identification(),
        dont_fragment: view.dont_fragment(),
        more_fragments: view.more_fragments(),
        fragment_offset: view.fragments_offset(),
        time_to_live: view.ttl(),
        protocol: view.protocol(),
        header_checksum: view.header_checksum(),
        source: view.source(),
        destination: view.destination(),
        options: view.options().try_into().unwrap(),
    };
    format!(
        "ok slice={} version={} ihl={} {} fragmenting={} payload_len={}",
        shown::bytes(view.slice()),
        view.version(),
        view.ihl(),
        shown::ipv4_fields(&by_getters),
        view.is_fragmenting_payload(),
        shown::payload_len(view.payload_len())
    )
}

#[allow(deprecated)]
fn read(call: &str, bytes: &[u8]) -> Option<String> {
    let result = match call {
        "head" => Ipv4Header::from_slice(bytes),
        _ => Ipv4Header::read_from_slice(bytes),
    };
    Some(match result {
        Ok((header, rest)) => format!(
            "ok {} rest={} bytes={}",
            shown::ipv4_fields(&header),
            shown::bytes(rest),
            shown::bytes(&header.to_bytes())
        ),
        Err(error) => shown::ipv4_error(&error),
    })
}

#[allow(deprecated)]
fn info(header: &Ipv4Header) -> String {
    let lengths = format!(
        "ihl={} header_len={} max_payload_len={}",
        header.ihl(),
        header.header_len(),
        header.max_payload_len()
    );
    format!(
        "{lengths} fragmenting={} calc={} options={} bytes={} payload_len={}",
        header.is_fragmenting_payload(),
        header.calc_header_checksum(),
        shown::bytes(header.options()),
        shown::bytes(&header.to_bytes()),
        shown::payload_len(header.payload_len())
    )
}

// What a setter says, and the header afterwards.
#[allow(deprecated)]
fn set(call: &str, value: &str, mut header: Ipv4Header) -> Option<String> {
    let said = match call {
        "set_payload_len" => match header.set_payload_len(arguments::number(value)?) {
            Ok(()) => "ok".to_string(),
            Err(error) => shown::too_big(&error),
        },
        "set_options" => match header.set_options(&arguments::bytes(value)?) {
            Ok(()) => "ok".to_string(),
            Err(error) => shown::bad_options(&error),
        },
        _ => {
            set_time_to_live(&mut header, arguments::number(value)?);
            "ok".to_string()
        }
    };
    Some(format!("{said} ; {}", shown::ipv4_fields(&header)))
}

// The crate has no such call: the word of the time to live and the protocol is another one.
fn set_time_to_live(header: &mut Ipv4Header, time_to_live: u8) {
    let old = u16::from_be_bytes([header.time_to_live, header.protocol.0]);
    let new = u16::from_be_bytes([time_to_live, header.protocol.0]);
    header.header_checksum = sums::updated(header.header_checksum, old, new);
    header.time_to_live = time_to_live;
}
