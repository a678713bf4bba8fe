use crate::ffi;

/// How frames begin, by the numbers of the registry of link types of tcpdump.org, which captures
/// use and `pcap_datalink` returns. The crate `etherparse` has no such type.
///
/// Any number may stand here: that of PPP, Cisco's HDLC, frame relay, SLIP or IEEE 802.11 too. A
/// frame of a link type that is not read is refused.
#[derive(Clone, Copy, Debug, PartialEq, Eq, PartialOrd, Ord, Hash)]
pub struct LinkType(pub u32);

impl LinkType {
    /// Four bytes with the family, in the byte order of the machine that captured the frame.
    pub const NULL: LinkType = LinkType(ffi::LINKTYPE_NULL);

    /// Ethernet (IEEE 802.3 section 3.1.1).
    pub const ETHERNET: LinkType = LinkType(ffi::LINKTYPE_ETHERNET);

    /// An IP packet without a link header.
    pub const RAW: LinkType = LinkType(ffi::LINKTYPE_RAW);

    /// Four bytes with the family, in network byte order.
    pub const LOOP: LinkType = LinkType(ffi::LINKTYPE_LOOP);

    /// A Linux cooked capture.
    pub const LINUX_SLL: LinkType = LinkType(ffi::LINKTYPE_LINUX_SLL);

    /// A Linux cooked capture of version 2.
    pub const LINUX_SLL2: LinkType = LinkType(ffi::LINKTYPE_LINUX_SLL2);
}
