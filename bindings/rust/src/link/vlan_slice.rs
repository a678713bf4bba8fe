use super::{EtherPayloadSlice, SingleVlanSlice};
use crate::ffi;

/// The VLAN tags of a frame, of which two are read: a third is another protocol.
#[derive(Clone, Copy, Debug, PartialEq, Eq)]
pub enum VlanSlice<'a> {
    /// One tag.
    SingleVlan(SingleVlanSlice<'a>),
    /// Two tags, as in a network of a service provider.
    DoubleVlan(DoubleVlanSlice<'a>),
}

/// Two VLAN tags.
#[derive(Clone, Copy, Debug, PartialEq, Eq)]
pub struct DoubleVlanSlice<'a> {
    /// The first tag.
    pub outer: SingleVlanSlice<'a>,
    /// The tag after it.
    pub inner: SingleVlanSlice<'a>,
}

impl<'a> VlanSlice<'a> {
    /// The bytes after the last tag, and what they are.
    pub fn payload(&self) -> EtherPayloadSlice<'a> {
        match self {
            VlanSlice::SingleVlan(tag) => tag.payload(),
            VlanSlice::DoubleVlan(tags) => tags.inner.payload(),
        }
    }

    pub(crate) fn of(frame: &'a [u8], link: &ffi::PacketLink) -> Option<VlanSlice<'a>> {
        // The tags follow the link header.
        let tags = &frame[link.header.offset + link.header.len..];
        let outer = SingleVlanSlice {
            slice: tags,
            tag: link.outer_vlan,
        };
        match link.vlan_count {
            1 => Some(VlanSlice::SingleVlan(outer)),
            2 => {
                let slice = outer.payload_slice();
                let inner = SingleVlanSlice {
                    slice,
                    tag: link.inner_vlan,
                };
                Some(VlanSlice::DoubleVlan(DoubleVlanSlice { outer, inner }))
            }
            _ => None,
        }
    }
}
