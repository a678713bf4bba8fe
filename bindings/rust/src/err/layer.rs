use crate::ffi;

/// A layer of a packet in which an error can come up.
#[derive(Clone, Copy, Debug, PartialEq, Eq, PartialOrd, Ord, Hash)]
pub enum Layer {
    /// The link header of a frame, of any kind. The crate `etherparse` has a layer for each.
    LinkHeader,
    /// A VLAN tag.
    VlanHeader,
    /// An IP packet of neither version, or of no bytes.
    IpHeader,
    /// The IPv4 header.
    Ipv4Header,
    /// The whole IPv4 packet, whose length the header gives.
    Ipv4Packet,
    /// The IPv6 header.
    Ipv6Header,
    /// The whole IPv6 packet, whose length the header gives.
    Ipv6Packet,
    /// An IPv6 extension header of any kind.
    Ipv6ExtHeader,
    /// The UDP header.
    UdpHeader,
    /// The TCP header.
    TcpHeader,
    /// A message of ICMP.
    Icmpv4,
    /// A message of ICMPv6.
    Icmpv6,
}

// Each layer and its number in the library. An IPv4 packet has two: the second if it has fewer bytes
// than its total length says.
const NUMBERS: [(Layer, u16); 13] = [
    (Layer::LinkHeader, ffi::LINK_HEADER),
    (Layer::VlanHeader, ffi::VLAN_HEADER),
    (Layer::IpHeader, ffi::IP_HEADER),
    (Layer::Ipv4Header, ffi::IPV4_HEADER),
    (Layer::Ipv4Packet, ffi::IPV4_PACKET),
    (Layer::Ipv4Packet, ffi::IPV4_PACKET_BYTES),
    (Layer::Ipv6Header, ffi::IPV6_HEADER),
    (Layer::Ipv6Packet, ffi::IPV6_PACKET),
    (Layer::Ipv6ExtHeader, ffi::IPV6_EXT_HEADER),
    (Layer::UdpHeader, ffi::UDP_HEADER),
    (Layer::TcpHeader, ffi::TCP_HEADER),
    (Layer::Icmpv4, ffi::ICMPV4),
    (Layer::Icmpv6, ffi::ICMPV6),
];

impl Layer {
    // The number that the library has for a layer; of an IPv4 packet the one that has a text with each
    // source of its length.
    pub(crate) fn number(self) -> u16 {
        let found = NUMBERS.iter().find(|known| known.0 == self);
        found.expect("each layer has a number").1
    }

    // The layer of a number that the library gave.
    pub(crate) fn of(number: u16) -> Layer {
        let found = NUMBERS.iter().find(|known| known.1 == number);
        found.expect("the library has thirteen numbers").0
    }
}
