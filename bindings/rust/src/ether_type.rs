/// What the bytes after a header are (IEEE 802.3 section 3.2.6). Up to 1500 it is no EtherType: in
/// Ethernet a length, in a Linux cooked capture a number of Linux's own.
#[derive(Clone, Copy, Debug, Default, PartialEq, Eq, PartialOrd, Ord, Hash)]
pub struct EtherType(pub u16);

impl EtherType {
    /// Internet Protocol version 4 (RFC 894).
    pub const IPV4: EtherType = EtherType(0x0800);

    /// Address Resolution Protocol (RFC 826).
    pub const ARP: EtherType = EtherType(0x0806);

    /// The tag of a customer's VLAN (IEEE 802.1Q section 9.5).
    pub const VLAN_TAGGED_FRAME: EtherType = EtherType(0x8100);

    /// Internet Protocol version 6 (RFC 2464 section 3).
    pub const IPV6: EtherType = EtherType(0x86dd);

    /// The tag of a service's VLAN (IEEE 802.1Q section 9.5).
    pub const PROVIDER_BRIDGING: EtherType = EtherType(0x88a8);

    /// Media access control security (IEEE 802.1AE).
    pub const MACSEC: EtherType = EtherType(0x88e5);

    /// The outer of two tags before the one of a service existed.
    pub const VLAN_DOUBLE_TAGGED_FRAME: EtherType = EtherType(0x9100);
}

impl From<u16> for EtherType {
    fn from(number: u16) -> EtherType {
        EtherType(number)
    }
}

impl From<EtherType> for u16 {
    fn from(ether_type: EtherType) -> u16 {
        ether_type.0
    }
}
