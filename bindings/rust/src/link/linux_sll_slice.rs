use crate::{u16_at, EtherType};

/// A frame of a Linux cooked capture (LINKTYPE_LINUX_SLL).
#[derive(Clone, Copy, Debug, PartialEq, Eq)]
pub struct LinuxSllSlice<'a> {
    // At least 16 bytes.
    pub(crate) slice: &'a [u8],
}

layer!(LinuxSllSlice, 16, protocol_type);

impl<'a> LinuxSllSlice<'a> {
    /// Whether the packet came in, as 0 to this host, 1 to all, 2 to a group or 3 to another host,
    /// or went out, as 4: bytes 0 and 1.
    pub fn packet_type(&self) -> u16 {
        u16_at(self.slice, 0)
    }

    /// The kind of the device, by Linux's numbers ARPHRD: bytes 2 and 3.
    pub fn arp_hardware_type(&self) -> u16 {
        u16_at(self.slice, 2)
    }

    /// The length of the sender's address in bytes, of which 8 are there at most: bytes 4 and 5.
    pub fn sender_address_valid_length(&self) -> u16 {
        u16_at(self.slice, 4)
    }

    /// The sender's address, as long as its length says, or its first 8 bytes: from byte 6 on.
    pub fn sender_address(&self) -> &'a [u8] {
        let len = usize::from(self.sender_address_valid_length());
        &self.slice[6..][..len.min(8)]
    }

    /// What follows the header: bytes 14 and 15. It is no EtherType if [`Self::arp_hardware_type`] is 824
    /// (netlink), 770 (frame relay) or 803 (radiotap).
    pub fn protocol_type(&self) -> EtherType {
        EtherType(u16_at(self.slice, 14))
    }
}
