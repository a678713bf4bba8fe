//! The loop of `frames.rt.txt` in Rust: frames taken apart by hand, down to the IP header, which is a view of the Rust crate
//! etherparse. Nothing is copied out of a frame: each layer is a view of it.

use etherparse::err::{ipv4, ipv6, Layer, LenError};
use etherparse::{ip_number, IpNumber, Ipv4HeaderSlice, Ipv6Header, Ipv6HeaderSlice, LenSource};
use std::slice;

const TAGS: [u16; 3] = [0x8100, 0x88a8, 0x9100];

/// A frame in its layers.
struct Sliced<'a> {
    link: &'a [u8; 14],
    vlan: Vlan<'a>,
    ether_type: u16,
    payload: &'a [u8],
    net: Option<Net<'a>>,
    transport: Option<Transport<'a>>,
}

/// Up to two tags, of 4 bytes after their EtherType.
enum Vlan<'a> {
    Nothing,
    Single(&'a [u8; 4]),
    Double(&'a [u8; 4], &'a [u8; 4]),
}

enum Header<'a> {
    V4(Ipv4HeaderSlice<'a>),
    V6 { header: Ipv6HeaderSlice<'a>, extensions: &'a [u8] },
}

struct Net<'a> {
    header: Header<'a>,
    fragment: Option<Fragment>,
    is_later: bool,
    upper: IpNumber,
    payload: &'a [u8],
}

#[derive(Clone, Copy)]
struct Fragment {
    identification: u32,
    offset: u32,
    more_fragments: bool,
}

enum Transport<'a> {
    Udp { header: &'a [u8; 8], payload: &'a [u8] },
    Tcp { header: &'a [u8; 20], options: &'a [u8], payload: &'a [u8] },
    Icmp { header: &'a [u8; 4], payload: &'a [u8] },
}

/// Why a frame is refused.
enum Refusal {
    Len(LenError),
    Ipv4(ipv4::HeaderSliceError),
    Ipv6(ipv6::HeaderSliceError),
    Version(u8),
    DataOffset(u8),
}

#[inline(always)]
fn u16_at(bytes: &[u8], place: usize) -> u16 {
    u16::from_be_bytes([bytes[place], bytes[place + 1]])
}

#[cold]
fn too_short(required_len: usize, len: usize, layer: Layer, layer_start_offset: usize) -> Refusal {
    Refusal::Len(LenError { required_len, len, len_source: LenSource::Slice, layer, layer_start_offset })
}

impl<'a> Sliced<'a> {
    fn from_ethernet(frame: &'a [u8]) -> Result<Sliced<'a>, Refusal> {
        let Some((link, mut payload)) = frame.split_first_chunk::<14>() else {
            return Err(too_short(14, frame.len(), Layer::Ethernet2Header, 0));
        };
        let mut ether_type = u16_at(link, 12);
        let mut vlan = Vlan::Nothing;
        if TAGS.contains(&ether_type) {
            let outer;
            (outer, payload) = tag(payload, frame.len())?;
            ether_type = u16_at(outer, 2);
            vlan = Vlan::Single(outer);
            if TAGS.contains(&ether_type) {
                let inner;
                (inner, payload) = tag(payload, frame.len())?;
                ether_type = u16_at(inner, 2);
                vlan = Vlan::Double(outer, inner);
            }
        }
        if ether_type != 0x0800 && ether_type != 0x86dd {
            return Ok(Sliced { link, vlan, ether_type, payload, net: None, transport: None });
        }
        let net = Net::from_slice(payload, frame.len() - payload.len())?;
        let transport = net.transport(frame)?;
        Ok(Sliced { link, vlan, ether_type, payload, net: Some(net), transport })
    }
}

#[inline(always)]
fn tag(bytes: &[u8], frame_len: usize) -> Result<(&[u8; 4], &[u8]), Refusal> {
    match bytes.split_first_chunk::<4>() {
        Some(found) => Ok(found),
        None => Err(too_short(4, bytes.len(), Layer::VlanHeader, frame_len - bytes.len())),
    }
}

impl<'a> Net<'a> {
    #[inline(always)]
    fn from_slice(packet: &'a [u8], place: usize) -> Result<Net<'a>, Refusal> {
        match packet.first() {
            Some(first) if first >> 4 == 4 => Net::from_ipv4(packet, place),
            Some(first) if first >> 4 == 6 => Net::from_ipv6(packet, place),
            Some(first) => Err(Refusal::Version(first >> 4)),
            None => Err(too_short(1, 0, Layer::IpHeader, place)),
        }
    }

    #[inline(always)]
    fn from_ipv4(packet: &'a [u8], place: usize) -> Result<Net<'a>, Refusal> {
        let header = Ipv4HeaderSlice::from_slice(packet).map_err(Refusal::Ipv4)?;
        let (header_len, total_len) = (header.slice().len(), usize::from(header.total_len()));
        if total_len < header_len {
            return Err(too_short(header_len, total_len, Layer::Ipv4Packet, place));
        }
        let Some(payload) = packet.get(header_len..total_len) else {
            return Err(too_short(total_len, packet.len(), Layer::Ipv4Packet, place));
        };
        let offset = u32::from(header.fragments_offset().value());
        let fragment = header.is_fragmenting_payload().then(|| Fragment {
            identification: u32::from(header.identification()),
            offset: 8 * offset,
            more_fragments: header.more_fragments(),
        });
        let upper = header.protocol();
        Ok(Net { header: Header::V4(header), fragment, is_later: offset != 0, upper, payload })
    }

    #[inline(always)]
    fn from_ipv6(packet: &'a [u8], place: usize) -> Result<Net<'a>, Refusal> {
        let header = Ipv6HeaderSlice::from_slice(packet).map_err(Refusal::Ipv6)?;
        let end = Ipv6Header::LEN + usize::from(header.payload_length());
        let Some(body) = packet.get(Ipv6Header::LEN..end) else {
            return Err(too_short(end, packet.len(), Layer::Ipv6Packet, place));
        };
        let (mut upper, mut payload) = (header.next_header(), body);
        let (mut fragment, mut is_later) = (None, false);
        while Ipv6Header::is_skippable_header_extension(upper) && !is_later {
            let at = payload;
            let is_fragment = upper == ip_number::IPV6_FRAG;
            (upper, payload) = Ipv6Header::skip_header_extension_in_slice(at, upper)
                .map_err(|e| Refusal::Len(e.add_offset(place + end - at.len())))?;
            let word = u16_at(at, 2);
            if is_fragment && word & !6 != 0 {
                is_later = word >> 3 != 0;
                fragment = fragment.or(Some(Fragment {
                    identification: u32::from_be_bytes([at[4], at[5], at[6], at[7]]),
                    offset: u32::from(word & !7),
                    more_fragments: word & 1 != 0,
                }));
            }
        }
        let extensions = &body[..body.len() - payload.len()];
        Ok(Net { header: Header::V6 { header, extensions }, fragment, is_later, upper, payload })
    }

    #[inline(always)]
    fn transport(&self, frame: &[u8]) -> Result<Option<Transport<'a>>, Refusal> {
        if self.is_later {
            return Ok(None);
        }
        let is_ipv4 = matches!(self.header, Header::V4(_));
        let found = match self.upper {
            ip_number::UDP => udp(self.payload),
            ip_number::TCP => tcp(self.payload),
            ip_number::ICMP if is_ipv4 => icmp(self.payload, Layer::Icmpv4),
            ip_number::IPV6_ICMP if !is_ipv4 => icmp(self.payload, Layer::Icmpv6),
            _ => return Ok(None),
        };
        match found {
            Ok(transport) => Ok(Some(transport)),
            Err(_) if self.fragment.is_some() => Ok(None),
            Err(Refusal::Len(e)) => {
                Err(Refusal::Len(e.add_offset(self.payload.as_ptr() as usize - frame.as_ptr() as usize)))
            }
            Err(e) => Err(e),
        }
    }
}

#[inline(always)]
fn udp(segment: &[u8]) -> Result<Transport, Refusal> {
    match segment.split_first_chunk::<8>() {
        Some((header, payload)) => Ok(Transport::Udp { header, payload }),
        None => Err(too_short(8, segment.len(), Layer::UdpHeader, 0)),
    }
}

#[inline(always)]
fn tcp(segment: &[u8]) -> Result<Transport, Refusal> {
    let Some((header, rest)) = segment.split_first_chunk::<20>() else {
        return Err(too_short(20, segment.len(), Layer::TcpHeader, 0));
    };
    let data_offset = header[12] >> 4;
    if data_offset < 5 {
        return Err(Refusal::DataOffset(data_offset));
    }
    let len = 4 * usize::from(data_offset);
    match rest.split_at_checked(len - 20) {
        Some((options, payload)) => Ok(Transport::Tcp { header, options, payload }),
        None => Err(too_short(len, segment.len(), Layer::TcpHeader, 0)),
    }
}

#[inline(always)]
fn icmp(message: &[u8], layer: Layer) -> Result<Transport, Refusal> {
    match message.split_first_chunk::<4>() {
        Some((header, payload)) => Ok(Transport::Icmp { header, payload }),
        None => Err(too_short(4, message.len(), layer, 0)),
    }
}

/// The fields of all frames, added up; 1 for each frame that is refused.
///
/// # Safety
///
/// `at` points to `count` slices that are there.
#[no_mangle]
pub unsafe extern "C" fn rust_frames(at: *const &[u8], count: usize) -> u64 {
    let mut all: u64 = 0;
    for frame in slice::from_raw_parts(at, count) {
        let fields = match Sliced::from_ethernet(frame) {
            Ok(packet) => link_fields(&packet)
                .wrapping_add(net_fields(&packet))
                .wrapping_add(transport_fields(&packet)),
            Err(_) => 1,
        };
        all = all.wrapping_mul(3).wrapping_add(fields);
    }
    all
}

#[inline(always)]
fn link_fields(packet: &Sliced) -> u64 {
    let [a, b, c, d, e, f, g, h, i, j, k, l, _, _] = *packet.link;
    let mut all = (packet.payload.len() as u64)
        .wrapping_add(u64::from_be_bytes([0, 0, a, b, c, d, e, f]))
        .wrapping_add(u64::from_be_bytes([0, 0, g, h, i, j, k, l]))
        .wrapping_add(u64::from(packet.ether_type));
    match packet.vlan {
        Vlan::Nothing => {}
        Vlan::Single(tag) => all = all.wrapping_add(tag_fields(tag)),
        Vlan::Double(outer, inner) => all = all.wrapping_add(tag_fields(outer)).wrapping_add(tag_fields(inner)),
    }
    all
}

#[inline(always)]
fn tag_fields(tag: &[u8; 4]) -> u64 {
    u64::from(u16_at(tag, 0) & 0xfff) + u64::from(tag[0] >> 5)
}

#[inline(always)]
fn net_fields(packet: &Sliced) -> u64 {
    let Some(net) = &packet.net else { return 0 };
    let mut all = match &net.header {
        Header::V4(header) => u64::from(u32::from_be_bytes(header.source()))
            .wrapping_add(u64::from(u32::from_be_bytes(header.destination())))
            .wrapping_add(u64::from(header.ttl())),
        Header::V6 { header, extensions } => halves(header.source())
            .wrapping_add(halves(header.destination()))
            .wrapping_add(u64::from(header.hop_limit()))
            .wrapping_add(extensions.len() as u64),
    };
    all = all.wrapping_add(u64::from(net.upper.0)).wrapping_add(net.payload.len() as u64);
    if let Some(place) = net.fragment {
        all = all
            .wrapping_add(u64::from(place.identification))
            .wrapping_add(u64::from(place.offset))
            .wrapping_add(u64::from(place.more_fragments));
    }
    all
}

#[inline(always)]
fn halves(address: [u8; 16]) -> u64 {
    let [a, b, c, d, e, f, g, h, i, j, k, l, m, n, o, p] = address;
    u64::from_be_bytes([a, b, c, d, e, f, g, h]).wrapping_add(u64::from_be_bytes([i, j, k, l, m, n, o, p]))
}

#[inline(always)]
fn transport_fields(packet: &Sliced) -> u64 {
    match &packet.transport {
        None => 0,
        Some(Transport::Udp { header, payload }) => (payload.len() as u64)
            .wrapping_add(u64::from(u16_at(*header, 0)))
            .wrapping_add(u64::from(u16_at(*header, 2)))
            .wrapping_add(u64::from(u16_at(*header, 4))),
        Some(Transport::Tcp { header, payload, .. }) => (payload.len() as u64)
            .wrapping_add(u64::from(u16_at(*header, 0)))
            .wrapping_add(u64::from(u16_at(*header, 2)))
            .wrapping_add(u64::from(u32::from_be_bytes([header[4], header[5], header[6], header[7]])))
            .wrapping_add(u64::from(header[13])),
        Some(Transport::Icmp { header, payload }) => {
            (payload.len() as u64).wrapping_add(256 * u64::from(header[0])).wrapping_add(u64::from(header[1]))
        }
    }
}
