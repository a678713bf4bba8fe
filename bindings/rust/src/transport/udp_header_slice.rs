use crate::u16_at;

/// A view of a UDP header (RFC 768).
#[derive(Clone, Copy, Debug, PartialEq, Eq)]
pub struct UdpHeaderSlice<'a> {
    // 8 bytes.
    pub(super) slice: &'a [u8],
}

ports!(UdpHeaderSlice);

impl UdpHeaderSlice<'_> {
    /// The length of header and payload as the sender says it, in bytes, which can differ from
    /// what is there: bytes 4 and 5.
    pub fn length(&self) -> u16 {
        u16_at(self.slice, 4)
    }

    /// The checksum, or 0 if there is none: bytes 6 and 7.
    pub fn checksum(&self) -> u16 {
        u16_at(self.slice, 6)
    }
}
