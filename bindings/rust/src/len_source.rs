use crate::ffi;

/// Where a length came from.
#[derive(Clone, Copy, Debug, PartialEq, Eq, PartialOrd, Ord, Hash)]
pub enum LenSource {
    /// From the slice.
    Slice,
    /// From the total length of an IPv4 header.
    Ipv4HeaderTotalLen,
    /// From the payload length of an IPv6 header.
    Ipv6HeaderPayloadLen,
}

impl LenSource {
    // The number that the library has for a source.
    pub(crate) fn number(self) -> u16 {
        match self {
            LenSource::Slice => ffi::FROM_SLICE,
            LenSource::Ipv4HeaderTotalLen => ffi::FROM_IPV4_TOTAL_LEN,
            LenSource::Ipv6HeaderPayloadLen => ffi::FROM_IPV6_PAYLOAD_LENGTH,
        }
    }

    // The source of a number that the library gave.
    pub(crate) fn of(number: u16) -> LenSource {
        match number {
            ffi::FROM_IPV4_TOTAL_LEN => LenSource::Ipv4HeaderTotalLen,
            ffi::FROM_IPV6_PAYLOAD_LENGTH => LenSource::Ipv6HeaderPayloadLen,
            _ => LenSource::Slice,
        }
    }
}
