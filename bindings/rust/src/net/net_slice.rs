use super::{Fragment, IpPayloadSlice, Ipv4Slice, Ipv6Slice};
use crate::ffi;
use core::net::IpAddr;

/// The IP packet of a frame.
#[derive(Clone, Copy, Debug, PartialEq, Eq)]
pub enum NetSlice<'a> {
    /// Of version 4.
    Ipv4(Ipv4Slice<'a>),
    /// Of version 6.
    Ipv6(Ipv6Slice<'a>),
}

impl<'a> NetSlice<'a> {
    /// The packet if it is of version 4.
    pub fn ipv4_ref(&self) -> Option<&Ipv4Slice<'a>> {
        match self {
            NetSlice::Ipv4(ip) => Some(ip),
            NetSlice::Ipv6(_) => None,
        }
    }

    /// The packet if it is of version 6.
    pub fn ipv6_ref(&self) -> Option<&Ipv6Slice<'a>> {
        match self {
            NetSlice::Ipv4(_) => None,
            NetSlice::Ipv6(ip) => Some(ip),
        }
    }

    /// The payload.
    pub fn ip_payload(&self) -> &IpPayloadSlice<'a> {
        match self {
            NetSlice::Ipv4(ip) => ip.payload(),
            NetSlice::Ipv6(ip) => ip.payload(),
        }
    }

    /// The place of the payload if it is a fragment.
    pub fn fragment(&self) -> Option<Fragment> {
        match self {
            NetSlice::Ipv4(ip) => ip.fragment(),
            NetSlice::Ipv6(ip) => ip.fragment(),
        }
    }

    /// The address of the sender.
    pub fn source_addr(&self) -> IpAddr {
        match self {
            NetSlice::Ipv4(ip) => ip.header().source_addr().into(),
            NetSlice::Ipv6(ip) => ip.header().source_addr().into(),
        }
    }

    /// The address of the receiver in the header, which a routing header or a source route option
    /// can have changed.
    pub fn destination_addr(&self) -> IpAddr {
        match self {
            NetSlice::Ipv4(ip) => ip.header().destination_addr().into(),
            NetSlice::Ipv6(ip) => ip.header().destination_addr().into(),
        }
    }

    pub(crate) fn of(frame: &'a [u8], ip: &ffi::PacketIp) -> Option<NetSlice<'a>> {
        match ip.version {
            4 => Some(NetSlice::Ipv4(Ipv4Slice::of(frame, ip))),
            6 => Some(NetSlice::Ipv6(Ipv6Slice::of(frame, ip))),
            _ => None,
        }
    }
}
