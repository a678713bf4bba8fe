use crate::{u16_at, u32_at, EtherType};

/// A frame of a Linux cooked capture of version 2 (LINKTYPE_LINUX_SLL2). The crate `etherparse`
/// has no such type.
#[derive(Clone, Copy, Debug, PartialEq, Eq)]
pub struct LinuxSll2Slice<'a> {
    // At least 20 bytes.
    pub(crate) slice: &'a [u8],
}

layer!(LinuxSll2Slice, 20, protocol_type);

impl<'a> LinuxSll2Slice<'a> {
    /// What follows the header: bytes 0 and 1. It is no EtherType if [`Self::arp_hardware_type`] is 824
    /// (netlink), 770 (frame relay) or 803 (radiotap).
    pub fn protocol_type(&self) -> EtherType {
        EtherType(u16_at(self.slice, 0))
    }

    /// The number of the interface on the machine that captured the frame: bytes 4 to 7.
    pub fn interface_index(&self) -> u32 {
        u32_at(self.slice, 4)
    }

    /// The kind of the device, by Linux's numbers ARPHRD: bytes 8 and 9.
    pub fn arp_hardware_type(&self) -> u16 {
        u16_at(self.slice, 8)
    }

    /// Whether the packet came in, as 0 to this host, 1 to all, 2 to a group or 3 to another host,
    /// or went out, as 4: byte 10.
    pub fn packet_type(&self) -> u8 {
        self.slice[10]
    }

    /// The length of the sender's address in bytes, of which 8 are there at most: byte 11.
    pub fn sender_address_valid_length(&self) -> u8 {
        self.slice[11]
    }

    /// The sender's address, as long as its length says, or its first 8 bytes: from byte 12 on.
    pub fn sender_address(&self) -> &'a [u8] {
        let len = usize::from(self.sender_address_valid_length());
        &self.slice[12..][..len.min(8)]
    }
}
