/// The number of a protocol or of an extension header, in the `protocol` of IPv4 and the
/// `next_header` of IPv6, as IANA assigns them.
#[derive(Clone, Copy, Debug, Default, PartialEq, Eq, PartialOrd, Ord, Hash)]
pub struct IpNumber(pub u8);

impl IpNumber {
    /// IPv6 Hop-by-Hop Option (RFC 8200).
    pub const IPV6_HEADER_HOP_BY_HOP: IpNumber = IpNumber(0);

    /// Internet Control Message (RFC 792).
    pub const ICMP: IpNumber = IpNumber(1);

    /// Transmission Control (RFC 9293).
    pub const TCP: IpNumber = IpNumber(6);

    /// User Datagram (RFC 768).
    pub const UDP: IpNumber = IpNumber(17);

    /// Routing Header for IPv6.
    pub const IPV6_ROUTE_HEADER: IpNumber = IpNumber(43);

    /// Fragment Header for IPv6.
    pub const IPV6_FRAGMENTATION_HEADER: IpNumber = IpNumber(44);

    /// Encap Security Payload (RFC 4303).
    pub const ENCAPSULATING_SECURITY_PAYLOAD: IpNumber = IpNumber(50);

    /// Authentication Header (RFC 4302).
    pub const AUTHENTICATION_HEADER: IpNumber = IpNumber(51);

    /// ICMP for IPv6 (RFC 4443).
    pub const IPV6_ICMP: IpNumber = IpNumber(58);

    /// No Next Header for IPv6 (RFC 8200).
    pub const IPV6_NO_NEXT_HEADER: IpNumber = IpNumber(59);

    /// Destination Options for IPv6 (RFC 8200).
    pub const IPV6_DESTINATION_OPTIONS: IpNumber = IpNumber(60);

    /// Mobility Header (RFC 6275).
    pub const MOBILITY_HEADER: IpNumber = IpNumber(135);

    /// Host Identity Protocol (RFC 7401).
    pub const HIP: IpNumber = IpNumber(139);

    /// Shim6 Protocol (RFC 5533).
    pub const SHIM6: IpNumber = IpNumber(140);
}

impl From<u8> for IpNumber {
    fn from(number: u8) -> IpNumber {
        IpNumber(number)
    }
}

impl From<IpNumber> for u8 {
    fn from(number: IpNumber) -> u8 {
        number.0
    }
}
