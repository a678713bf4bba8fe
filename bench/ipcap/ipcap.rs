//! The program `ipcap` in Rust, on the Rust crate etherparse: the same lines for captures of link type 101, the same closing
//! line, and input and output in pieces of the same size. Its texts of refused packets are shorter.

use etherparse::checksum::u64_16bit_word::{add_slice, ones_complement};
use etherparse::{IpNumber, Ipv4Header, Ipv6Header};
use std::fmt::{self, Display, Formatter};
use std::io::{self, Read, Write};
use std::net::{Ipv4Addr, Ipv6Addr};
use std::process::ExitCode;

const ROOM: usize = 262_160;
const TEXT_ROOM: usize = 65_536;

#[derive(Clone, Copy)]
enum Address {
    V4([u8; 4]),
    V6([u8; 16]),
}

#[derive(Clone, Copy)]
enum Detail {
    Ports(u16, u16),
    Message(u8, u8),
    Nothing,
}

#[derive(Clone, Copy)]
struct Mark {
    identification: u32,
    offset: u32,
    more: bool,
}

#[derive(Clone, Copy, PartialEq)]
enum Verdict {
    Right,
    Wrong,
    Absent,
}

struct Shown {
    source: Address,
    destination: Address,
    upper: u8,
    detail: Detail,
    len: usize,
    hops: u8,
    mark: Option<Mark>,
    header_checksum: Verdict,
    payload_checksum: Verdict,
}

impl Display for Address {
    fn fmt(&self, f: &mut Formatter) -> fmt::Result {
        match self {
            Address::V4(octets) => Ipv4Addr::from(*octets).fmt(f),
            Address::V6(octets) => Ipv6Addr::from(*octets).fmt(f),
        }
    }
}

struct Upper(u8);

impl Display for Upper {
    fn fmt(&self, f: &mut Formatter) -> fmt::Result {
        match self.0 {
            1 => f.write_str("ICMP"),
            2 => f.write_str("IGMP"),
            4 => f.write_str("IPv4"),
            6 => f.write_str("TCP"),
            17 => f.write_str("UDP"),
            41 => f.write_str("IPv6"),
            46 => f.write_str("RSVP"),
            47 => f.write_str("GRE"),
            50 => f.write_str("ESP"),
            51 => f.write_str("AH"),
            58 => f.write_str("IPv6-ICMP"),
            59 => f.write_str("IPv6-NoNxt"),
            88 => f.write_str("EIGRP"),
            89 => f.write_str("OSPFIGP"),
            94 => f.write_str("IPIP"),
            103 => f.write_str("PIM"),
            108 => f.write_str("IPComp"),
            112 => f.write_str("VRRP"),
            115 => f.write_str("L2TP"),
            132 => f.write_str("SCTP"),
            136 => f.write_str("UDPLite"),
            137 => f.write_str("MPLS-in-IP"),
            number => number.fmt(f),
        }
    }
}

impl Display for Detail {
    fn fmt(&self, f: &mut Formatter) -> fmt::Result {
        match self {
            Detail::Ports(source, destination) => write!(f, "{source}>{destination}"),
            Detail::Message(kind, code) => write!(f, "{kind}/{code}"),
            Detail::Nothing => f.write_str("-"),
        }
    }
}

struct Marked(Option<Mark>);

impl Display for Marked {
    fn fmt(&self, f: &mut Formatter) -> fmt::Result {
        match self.0 {
            None => f.write_str("-"),
            Some(mark) => write!(f, "{}@{}{}", mark.identification, mark.offset, if mark.more { "+" } else { "" }),
        }
    }
}

impl Display for Verdict {
    fn fmt(&self, f: &mut Formatter) -> fmt::Result {
        f.write_str(match self {
            Verdict::Right => "right",
            Verdict::Wrong => "wrong",
            Verdict::Absent => "none",
        })
    }
}

impl Display for Shown {
    fn fmt(&self, f: &mut Formatter) -> fmt::Result {
        write!(f, "{} > {} {} {}", self.source, self.destination, Upper(self.upper), self.detail)?;
        write!(f, " length {} hops {} fragment {}", self.len, self.hops, Marked(self.mark))?;
        write!(f, " checksums {} {}", self.header_checksum, self.payload_checksum)
    }
}

fn verdict(is_right: bool) -> Verdict {
    if is_right {
        Verdict::Right
    } else {
        Verdict::Wrong
    }
}

fn read_packet(packet: &[u8]) -> Result<Shown, String> {
    match packet.first() {
        None => Err("there is no packet".to_string()),
        Some(first) if first >> 4 == 4 => read_ipv4(packet),
        Some(first) if first >> 4 == 6 => read_ipv6(packet),
        Some(first) => Err(format!("version {}", first >> 4)),
    }
}

fn read_ipv4(packet: &[u8]) -> Result<Shown, String> {
    let (header, rest) = Ipv4Header::from_slice(packet).map_err(|e| e.to_string())?;
    let len = usize::from(header.payload_len().map_err(|e| e.to_string())?);
    let payload = rest.get(..len).ok_or("the packet is cut off")?;
    let offset = header.fragment_offset.value();
    let mark = (header.more_fragments || offset != 0).then(|| Mark {
        identification: header.identification.into(),
        offset: 8 * u32::from(offset),
        more: header.more_fragments,
    });
    let upper = header.protocol.0;
    let pseudo = |number: u8, len: usize| {
        let start = add_slice(add_slice(0, &header.source), &header.destination);
        add_slice(start, &[0, number, (len >> 8) as u8, len as u8])
    };
    let segment = if mark.is_some() { None } else { segment_of(1, upper, payload) };
    let payload_checksum = match segment {
        None => Verdict::Absent,
        Some(segment) if upper == 17 && segment[6..8] == [0, 0] => Verdict::Absent,
        Some(segment) => {
            let start = if upper == 1 { 0 } else { pseudo(upper, segment.len()) };
            verdict(ones_complement(add_slice(start, segment)) == 0)
        }
    };
    Ok(Shown {
        source: Address::V4(header.source),
        destination: Address::V4(header.destination),
        upper,
        detail: detail_behind(offset != 0, 1, upper, payload),
        len,
        hops: header.time_to_live,
        mark,
        header_checksum: verdict(ones_complement(add_slice(0, &packet[..header.header_len()])) == 0),
        payload_checksum,
    })
}

fn read_ipv6(packet: &[u8]) -> Result<Shown, String> {
    let (header, rest) = Ipv6Header::from_slice(packet).map_err(|e| e.to_string())?;
    let len = usize::from(header.payload_length);
    let behind = rest.get(..len).ok_or("the packet is cut off")?;
    let (mut number, mut payload, mut mark, mut is_later) = (header.next_header, behind, None, false);
    while !is_later && Ipv6Header::is_skippable_header_extension(number) {
        let front = payload;
        let is_fragment = number == IpNumber::IPV6_FRAGMENTATION_HEADER;
        (number, payload) =
            Ipv6Header::skip_header_extension_in_slice(front, number).map_err(|e| e.to_string())?;
        if is_fragment {
            let field = u16::from_be_bytes([front[2], front[3]]);
            let (offset, more) = (u32::from(field & 0xfff8), field & 1 == 1);
            if mark.is_none() && (more || offset != 0) {
                let identification = u32::from_be_bytes([front[4], front[5], front[6], front[7]]);
                mark = Some(Mark { identification, offset, more });
            }
            is_later = offset != 0;
        }
    }
    let upper = number.0;
    let segment = if mark.is_some() { None } else { segment_of(58, upper, payload) };
    let payload_checksum = match segment {
        None => Verdict::Absent,
        Some(segment) if upper == 17 && segment[6..8] == [0, 0] => Verdict::Wrong,
        Some(segment) => {
            let start = add_slice(add_slice(0, &header.source), &header.destination);
            let [a, b, c, d] = (segment.len() as u32).to_be_bytes();
            let start = add_slice(start, &[a, b, c, d, 0, 0, 0, upper]);
            verdict(ones_complement(add_slice(start, segment)) == 0)
        }
    };
    Ok(Shown {
        source: Address::V6(header.source),
        destination: Address::V6(header.destination),
        upper,
        detail: detail_behind(is_later, 58, upper, payload),
        len: payload.len(),
        hops: header.hop_limit,
        mark,
        header_checksum: Verdict::Absent,
        payload_checksum,
    })
}

fn segment_of(icmp: u8, number: u8, payload: &[u8]) -> Option<&[u8]> {
    if number == 17 {
        let len = usize::from(u16::from_be_bytes([*payload.get(4)?, *payload.get(5)?]));
        return if len < 8 { None } else { payload.get(..len) };
    }
    (number == 6 && payload.len() >= 20 || number == icmp && payload.len() >= 4).then_some(payload)
}

fn detail_behind(is_later: bool, icmp: u8, number: u8, payload: &[u8]) -> Detail {
    if is_later {
        return Detail::Nothing;
    }
    if number == 17 && payload.len() >= 8 || number == 6 && payload.len() >= 20 {
        let ports = [0, 2].map(|at| u16::from_be_bytes([payload[at], payload[at + 1]]));
        return Detail::Ports(ports[0], ports[1]);
    }
    if number == icmp && payload.len() >= 4 {
        return Detail::Message(payload[0], payload[1]);
    }
    Detail::Nothing
}

#[derive(Default)]
struct Totals {
    records: u64,
    ipv4: u64,
    ipv6: u64,
    refused: u64,
    cut: u64,
    wrong: u64,
}

impl Totals {
    fn count(&mut self, reading: &Result<Shown, String>, is_cut: bool) {
        self.records += 1;
        self.cut += u64::from(is_cut);
        match reading {
            Err(_) => self.refused += 1,
            Ok(shown) => {
                match shown.source {
                    Address::V4(_) => self.ipv4 += 1,
                    Address::V6(_) => self.ipv6 += 1,
                }
                let is_wrong = shown.header_checksum == Verdict::Wrong || shown.payload_checksum == Verdict::Wrong;
                self.wrong += u64::from(is_wrong);
            }
        }
    }
}

/// How the integers of a capture are written: its byte order, and the digits of a fraction of a second.
struct Format {
    is_big: bool,
    digits: usize,
}

impl Format {
    fn of(magic: [u8; 4]) -> Option<Format> {
        let (is_big, digits) = match magic {
            [0xa1, 0xb2, 0xc3, 0xd4] => (true, 6),
            [0xd4, 0xc3, 0xb2, 0xa1] => (false, 6),
            [0xa1, 0xb2, 0x3c, 0x4d] => (true, 9),
            [0x4d, 0x3c, 0xb2, 0xa1] => (false, 9),
            _ => return None,
        };
        Some(Format { is_big, digits })
    }

    fn number(&self, bytes: &[u8], at: usize) -> u32 {
        let bytes = [bytes[at], bytes[at + 1], bytes[at + 2], bytes[at + 3]];
        if self.is_big {
            u32::from_be_bytes(bytes)
        } else {
            u32::from_le_bytes(bytes)
        }
    }
}

fn list(is_quiet: bool, input: &mut impl Read, output: &mut impl Write) -> io::Result<Option<Totals>> {
    let mut window = vec![0; ROOM];
    let mut len = 0;
    let mut text = Vec::with_capacity(TEXT_ROOM);
    let mut totals = Totals::default();
    let mut format = None;
    loop {
        let n = input.read(&mut window[len..])?;
        if n == 0 {
            break;
        }
        len += n;
        let mut at = 0;
        if format.is_none() {
            if len < 24 {
                continue;
            }
            format = Format::of([window[0], window[1], window[2], window[3]]);
            if !format.as_ref().is_some_and(|format| format.number(&window, 20) % 65536 == 101) {
                return Ok(None);
            }
            at = 24;
        }
        let Some(format) = &format else { return Ok(None) };
        while len - at >= 16 {
            let record = &window[at..len];
            let captured_len = format.number(record, 8) as usize;
            let Some(packet) = record.get(16..16 + captured_len) else { break };
            let reading = read_packet(packet);
            let original_len = format.number(record, 12) as usize;
            totals.count(&reading, captured_len < original_len);
            at += 16 + captured_len;
            if is_quiet {
                continue;
            }
            if TEXT_ROOM - text.len() < 1024 {
                output.write_all(&text)?;
                text.clear();
            }
            let (seconds, fraction) = (format.number(record, 0), format.number(record, 4));
            write!(text, "{} {seconds}.{fraction:0width$} ", totals.records, width = format.digits)?;
            match reading {
                Ok(shown) => write!(text, "{shown}")?,
                Err(e) => write!(text, "error: {e}")?,
            }
            if captured_len < original_len {
                write!(text, " cut {captured_len}/{original_len}")?;
            }
            text.push(b'\n');
        }
        window.copy_within(at..len, 0);
        len -= at;
    }
    output.write_all(&text)?;
    Ok(Some(totals))
}

fn main() -> ExitCode {
    let is_quiet = std::env::args().nth(1).as_deref() == Some("--quiet");
    let mut output = io::stdout().lock();
    // A handle that keeps nothing back: the text is gathered before it is written.
    let mut input = io::stdin().lock();
    match list(is_quiet, &mut input, &mut output) {
        Ok(Some(totals)) => {
            let line = format!(
                "{} packets: {} IPv4, {} IPv6, 0 other, {} refused, 0 skipped, {} cut, {} with a wrong checksum\n",
                totals.records, totals.ipv4, totals.ipv6, totals.refused, totals.cut, totals.wrong
            );
            let written = if is_quiet { output.write_all(line.as_bytes()) } else { io::stderr().write_all(line.as_bytes()) };
            ExitCode::from(if written.and(output.flush()).is_ok() { 0 } else { 3 })
        }
        Ok(None) => ExitCode::from(2),
        Err(_) => ExitCode::from(3),
    }
}
