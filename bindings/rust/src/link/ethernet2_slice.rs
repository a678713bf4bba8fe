use crate::{u16_at, EtherType};

/// An Ethernet frame (IEEE 802.3 section 3.1.1). A frame check sequence is not looked for.
#[derive(Clone, Copy, Debug, PartialEq, Eq)]
pub struct Ethernet2Slice<'a> {
    // At least 14 bytes.
    pub(crate) slice: &'a [u8],
}

layer!(Ethernet2Slice, 14, ether_type);

impl Ethernet2Slice<'_> {
    /// Who receives the frame: bytes 0 to 5.
    pub fn destination(&self) -> [u8; 6] {
        core::array::from_fn(|place| self.slice[place])
    }

    /// Who sent the frame: bytes 6 to 11.
    pub fn source(&self) -> [u8; 6] {
        core::array::from_fn(|place| self.slice[6 + place])
    }

    /// What follows the header: bytes 12 and 13.
    pub fn ether_type(&self) -> EtherType {
        EtherType(u16_at(self.slice, 12))
    }
}
