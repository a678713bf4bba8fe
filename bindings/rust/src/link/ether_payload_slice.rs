use crate::EtherType;

/// Bytes after a header, and what that header says that they are.
#[derive(Clone, Copy, Debug, PartialEq, Eq)]
pub struct EtherPayloadSlice<'a> {
    /// What they are.
    pub ether_type: EtherType,
    /// The bytes, with what a frame has after them, as Ethernet's padding.
    pub payload: &'a [u8],
}
