use super::{Icmpv4Slice, Icmpv6Slice, TcpHeaderSlice, TcpSlice, UdpHeaderSlice, UdpSlice};
use crate::{ffi, part, IpNumber};

/// The transport header of an IP packet and what follows it.
#[derive(Clone, Copy, Debug, PartialEq, Eq)]
pub enum TransportSlice<'a> {
    /// A message of ICMP.
    Icmpv4(Icmpv4Slice<'a>),
    /// A message of ICMPv6.
    Icmpv6(Icmpv6Slice<'a>),
    /// A UDP datagram.
    Udp(UdpSlice<'a>),
    /// A TCP segment.
    Tcp(TcpSlice<'a>),
}

impl<'a> TransportSlice<'a> {
    pub(crate) fn of(
        frame: &'a [u8],
        transport: &ffi::PacketTransport,
    ) -> Option<TransportSlice<'a>> {
        let header = part(frame, transport.header);
        // The payload stands after the header.
        let ffi::Part { offset, len } = transport.header;
        let slice = &frame[offset..][..len + transport.payload.len];
        Some(match IpNumber(transport.kind) {
            IpNumber::UDP => {
                let header = UdpHeaderSlice { slice: header };
                TransportSlice::Udp(UdpSlice { header, slice })
            }
            IpNumber::TCP => {
                let header = TcpHeaderSlice { slice: header };
                TransportSlice::Tcp(TcpSlice { header, slice })
            }
            IpNumber::ICMP => TransportSlice::Icmpv4(Icmpv4Slice { slice }),
            IpNumber::IPV6_ICMP => TransportSlice::Icmpv6(Icmpv6Slice { slice }),
            _ => return None,
        })
    }
}
