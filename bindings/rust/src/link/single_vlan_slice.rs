use super::{VlanId, VlanPcp};
use crate::{ffi, u16_at, EtherType};

/// What follows the EtherType of a VLAN tag: the tag control information, the EtherType of what is
/// tagged, and that (IEEE 802.1Q sections 9.3 and 9.6).
#[derive(Clone, Copy, Debug, PartialEq, Eq)]
pub struct SingleVlanSlice<'a> {
    // At least 4 bytes.
    pub(super) slice: &'a [u8],
    pub(super) tag: ffi::VlanTag,
}

layer!(SingleVlanSlice, 4, ether_type);

impl SingleVlanSlice<'_> {
    /// The priority: the upper 3 bits of byte 0.
    pub fn priority_code_point(&self) -> VlanPcp {
        VlanPcp(self.tag.priority)
    }

    /// Whether the frame may be dropped before others: the fourth highest bit of byte 0.
    pub fn drop_eligible_indicator(&self) -> bool {
        self.tag.drop_eligible
    }

    /// The identifier of the VLAN: the lower 12 bits of bytes 0 and 1.
    pub fn vlan_identifier(&self) -> VlanId {
        VlanId(self.tag.identifier)
    }

    /// What is tagged: bytes 2 and 3.
    pub fn ether_type(&self) -> EtherType {
        EtherType(u16_at(self.slice, 2))
    }
}
