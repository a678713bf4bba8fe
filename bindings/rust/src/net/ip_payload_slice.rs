use crate::IpNumber;

/// The payload of an IP packet, after the extension headers of IPv6.
#[derive(Clone, Copy, Debug, PartialEq, Eq)]
pub struct IpPayloadSlice<'a> {
    /// The protocol of the payload.
    pub ip_number: IpNumber,
    /// Whether it is a fragment.
    pub fragmented: bool,
    /// Whether fewer bytes are there than the packet says; `false` if it says nothing.
    pub incomplete: bool,
    /// The bytes, as far as they are there and the packet goes: without Ethernet's padding, if the
    /// packet says how long it is.
    pub payload: &'a [u8],
}
