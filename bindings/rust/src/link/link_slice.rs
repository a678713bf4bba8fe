use super::{Ethernet2Slice, LinuxSll2Slice, LinuxSllSlice};
use crate::{ffi, part};

/// The link header of a frame.
#[derive(Clone, Copy, Debug, PartialEq, Eq)]
pub enum LinkSlice<'a> {
    /// That of Ethernet.
    Ethernet2(Ethernet2Slice<'a>),
    /// That of a Linux cooked capture.
    LinuxSll(LinuxSllSlice<'a>),
    /// That of a Linux cooked capture of version 2.
    LinuxSll2(LinuxSll2Slice<'a>),
    /// That of a loopback interface.
    Loopback {
        /// What the frame carries: 2 for IPv4; 24, 28 or 30, by the system, for IPv6; or another
        /// protocol.
        family: u32,
    },
    /// That of PPP, Cisco's HDLC, frame relay, SLIP or IEEE 802.11.
    Framed {
        /// The bytes of the header.
        slice: &'a [u8],
    },
}

impl<'a> LinkSlice<'a> {
    pub(crate) fn of(frame: &'a [u8], link: &ffi::PacketLink) -> Option<LinkSlice<'a>> {
        let slice = frame;
        Some(match link.kind {
            ffi::ETHERNET => LinkSlice::Ethernet2(Ethernet2Slice { slice }),
            ffi::LINUX_SLL => LinkSlice::LinuxSll(LinuxSllSlice { slice }),
            ffi::LINUX_SLL2 => LinkSlice::LinuxSll2(LinuxSll2Slice { slice }),
            ffi::LOOPBACK => LinkSlice::Loopback {
                family: link.family,
            },
            ffi::FRAMED => LinkSlice::Framed {
                slice: part(frame, link.header),
            },
            _ => return None,
        })
    }
}
