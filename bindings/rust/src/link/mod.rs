// What the slices of a header and all bytes after it share, where an EtherType in the header says what
// these are.
macro_rules! layer {
    ($name:ident, $len:literal, $ether_type:ident) => {
        impl<'a> $name<'a> {
            /// The length of the header, in bytes.
            pub const LEN: usize = $len;

            /// The header and all bytes after it.
            pub fn slice(&self) -> &'a [u8] {
                self.slice
            }

            /// The bytes of the header.
            pub fn header_slice(&self) -> &'a [u8] {
                &self.slice[..Self::LEN]
            }

            /// The bytes after the header.
            pub fn payload_slice(&self) -> &'a [u8] {
                &self.slice[Self::LEN..]
            }

            /// The bytes after the header, and what they are.
            pub fn payload(&self) -> crate::EtherPayloadSlice<'a> {
                crate::EtherPayloadSlice {
                    ether_type: self.$ether_type(),
                    payload: self.payload_slice(),
                }
            }
        }
    };
}

mod ether_payload_slice;
mod ethernet2_slice;
mod link_slice;
mod linux_sll2_slice;
mod linux_sll_slice;
mod single_vlan_slice;
mod vlan_fields;
mod vlan_slice;

pub use ether_payload_slice::EtherPayloadSlice;
pub use ethernet2_slice::Ethernet2Slice;
pub use link_slice::LinkSlice;
pub use linux_sll2_slice::LinuxSll2Slice;
pub use linux_sll_slice::LinuxSllSlice;
pub use single_vlan_slice::SingleVlanSlice;
pub use vlan_fields::{VlanId, VlanPcp};
pub use vlan_slice::{DoubleVlanSlice, VlanSlice};
