use crate::err::packet::SliceError;
use crate::{ffi, part, parts};
use crate::{
    EtherPayloadSlice, EtherType, Fragment, IpPayloadSlice, LinkSlice, LinkType, NetSlice,
};
use crate::{TransportSlice, Verdict, VlanId, VlanSlice};

/// The layers of a frame that is read whole: one that ends within a layer, or has a wrong length,
/// is refused.
///
/// ```
/// use etherparse_proved::{SlicedPacket, TransportSlice, VlanSlice};
///
/// // Ethernet, a tag of VLAN 5, IPv4, and a UDP datagram to port 53.
/// let frame = [
///     2, 0, 0, 0, 0, 2, 2, 0, 0, 0, 0, 1, 0x81, 0, 0x60, 5, 8, 0, 0x45, 0, 0, 30, 0, 0, 0, 0, 64, 17,
///     0, 0, 10, 0, 0, 1, 10, 0, 0, 2, 4, 0, 0, 53, 0, 10, 0, 0, b'h', b'i',
/// ];
/// let packet = SlicedPacket::from_ethernet(&frame)?;
/// assert!(matches!(packet.vlan, Some(VlanSlice::SingleVlan(tag)) if tag.vlan_identifier().value() == 5));
/// assert!(matches!(packet.transport, Some(TransportSlice::Udp(udp)) if udp.payload() == b"hi"));
/// assert_eq!(packet.ports(), Some((1024, 53)));
/// # Ok::<(), etherparse_proved::err::packet::SliceError>(())
/// ```
#[derive(Clone, Debug, PartialEq, Eq)]
pub struct SlicedPacket<'a> {
    /// The link header; `None` if there is none before what was read.
    pub link: Option<LinkSlice<'a>>,
    /// The VLAN tags.
    pub vlan: Option<VlanSlice<'a>>,
    /// What follows the link header and the tags; `None` if no EtherType says so, as in a frame of
    /// a loopback interface, or in a Linux cooked capture of netlink.
    pub ether_type: Option<EtherType>,
    /// All bytes after the link header and the tags: an IP packet and what comes after it, as
    /// Ethernet's padding, or another protocol.
    pub payload: &'a [u8],
    /// The IP packet; `None` if `payload` is another protocol.
    pub net: Option<NetSlice<'a>>,
    /// The transport header; `None` if the payload of the IP packet is of another protocol, is a
    /// later fragment, or is a first fragment without the whole header or
    /// with a data offset of TCP below 5.
    pub transport: Option<TransportSlice<'a>>,
    ports: Option<(u16, u16)>,
    checksums: Checksums,
}

// What the library found of the checksums of an IPv4 header and of a payload; `NOT_JUDGED` where it
// was not asked.
#[derive(Clone, Copy, Debug)]
struct Checksums {
    header: u8,
    payload: u8,
}

// Whoever asks later finds the same, so two packets do not differ by who has asked.
impl PartialEq for Checksums {
    fn eq(&self, _: &Checksums) -> bool {
        true
    }
}

impl Eq for Checksums {}

impl Checksums {
    fn of(answer: &ffi::Packet) -> Checksums {
        Checksums {
            header: answer.header_checksum,
            payload: answer.payload_checksum,
        }
    }
}

impl<'a> SlicedPacket<'a> {
    /// The layers of an Ethernet frame (IEEE 802.3 section 3.1.1).
    ///
    /// # Errors
    ///
    /// Those of [`SlicedPacket::from_link_type`].
    pub fn from_ethernet(frame: &'a [u8]) -> Result<SlicedPacket<'a>, SliceError> {
        SlicedPacket::from_link_type(LinkType::ETHERNET, frame)
    }

    /// The layers of a Linux cooked capture.
    ///
    /// # Errors
    ///
    /// Those of [`SlicedPacket::from_link_type`].
    pub fn from_linux_sll(frame: &'a [u8]) -> Result<SlicedPacket<'a>, SliceError> {
        SlicedPacket::from_link_type(LinkType::LINUX_SLL, frame)
    }

    /// The layers of a Linux cooked capture of version 2. The crate `etherparse` has no such call.
    ///
    /// # Errors
    ///
    /// Those of [`SlicedPacket::from_link_type`].
    pub fn from_linux_sll2(frame: &'a [u8]) -> Result<SlicedPacket<'a>, SliceError> {
        SlicedPacket::from_link_type(LinkType::LINUX_SLL2, frame)
    }

    /// The layers of a frame of a loopback interface whose family is in the byte order of the
    /// machine that captured it. The crate `etherparse` has no such call.
    ///
    /// # Errors
    ///
    /// Those of [`SlicedPacket::from_link_type`].
    pub fn from_loopback(frame: &'a [u8]) -> Result<SlicedPacket<'a>, SliceError> {
        SlicedPacket::from_link_type(LinkType::NULL, frame)
    }

    /// The layers of an IP packet of either version.
    ///
    /// # Errors
    ///
    /// Those of [`SlicedPacket::from_link_type`].
    pub fn from_ip(packet: &'a [u8]) -> Result<SlicedPacket<'a>, SliceError> {
        SlicedPacket::from_link_type(LinkType::RAW, packet)
    }

    /// The layers of a frame of a link type. The crate `etherparse` has no such call.
    ///
    /// # Errors
    ///
    /// The first of these: `LinkType` if frames of that type are not read; `Len` of the link header
    /// or of a VLAN tag; `Len`, `Ip` or `Ipv4` of the IP packet; `Len` or `Tcp` of the transport
    /// header. Each place counts from the start of the frame.
    pub fn from_link_type(
        link_type: LinkType,
        frame: &'a [u8],
    ) -> Result<SlicedPacket<'a>, SliceError> {
        let mut answer = ffi::Packet::default();
        let (at, len) = parts(frame);
        // SAFETY: the pointer and the length are those of one slice, and the answer is another.
        unsafe {
            ffi::etherparse_packet_strict_from_link_type(link_type.0, at, len, false, &mut answer)
        }
        SlicedPacket::whole(frame, &answer)
    }

    /// The layers of bytes that an EtherType names: a VLAN tag and what it tags, an IP packet, or
    /// another protocol.
    ///
    /// # Errors
    ///
    /// Those of [`SlicedPacket::from_link_type`], without those of a link header.
    pub fn from_ether_type(
        ether_type: EtherType,
        bytes: &'a [u8],
    ) -> Result<SlicedPacket<'a>, SliceError> {
        let mut answer = ffi::Packet::default();
        let (at, len) = parts(bytes);
        // SAFETY: as above.
        unsafe {
            ffi::etherparse_packet_strict_from_ether_type(ether_type.0, at, len, false, &mut answer)
        }
        SlicedPacket::whole(bytes, &answer)
    }

    /// What follows the link header and the tags, if an EtherType says so.
    pub fn payload_ether_type(&self) -> Option<EtherType> {
        self.ether_type
    }

    /// The bytes after the link header and the tags, and what they are, if an EtherType says so.
    pub fn ether_payload(&self) -> Option<EtherPayloadSlice<'a>> {
        Some(EtherPayloadSlice {
            ether_type: self.ether_type?,
            payload: self.payload,
        })
    }

    /// The VLAN tags.
    pub fn vlan(&self) -> Option<VlanSlice<'a>> {
        self.vlan
    }

    /// The identifiers of the VLAN tags, from the outermost on.
    pub fn vlan_ids(&self) -> impl Iterator<Item = VlanId> + 'a {
        let (outer, inner) = match self.vlan {
            Some(VlanSlice::SingleVlan(tag)) => (Some(tag), None),
            Some(VlanSlice::DoubleVlan(tags)) => (Some(tags.outer), Some(tags.inner)),
            None => (None, None),
        };
        outer
            .into_iter()
            .chain(inner)
            .map(|tag| tag.vlan_identifier())
    }

    /// The payload of the IP packet.
    pub fn ip_payload(&self) -> Option<&IpPayloadSlice<'a>> {
        self.net.as_ref().map(NetSlice::ip_payload)
    }

    /// Whether the payload of an IP packet is a fragment.
    pub fn is_ip_payload_fragmented(&self) -> bool {
        self.fragment().is_some()
    }

    /// The place of the IP packet's payload if it is a fragment. The crate `etherparse` has no such
    /// call.
    pub fn fragment(&self) -> Option<Fragment> {
        self.net?.fragment()
    }

    /// The source port and the destination port of UDP or TCP, also of a first fragment or a
    /// truncated packet without the whole header. The crate `etherparse` has no such call.
    pub fn ports(&self) -> Option<(u16, u16)> {
        self.ports
    }

    /// The verdict on the checksum of the IP packet's payload, with its pseudo-header; `None` if
    /// there is no IP packet. It reads all bytes of the payload, unless they were read with the
    /// layers. The crate `etherparse` has no such call.
    pub fn verdict(&self) -> Option<Verdict> {
        Verdict::of(self.checksums()?.payload)
    }

    /// Whether the checksum of an IPv4 header is right; `None` if there is no such header. The
    /// crate `etherparse` has no such call.
    pub fn is_header_checksum_right(&self) -> Option<bool> {
        match self.checksums()?.header {
            ffi::NOT_JUDGED => None,
            found => Some(found == ffi::RIGHT),
        }
    }

    // What the library finds of the checksums of the IP packet and of its payload.
    fn checksums(&self) -> Option<Checksums> {
        self.net?;
        if self.checksums.payload != ffi::NOT_JUDGED {
            return Some(self.checksums);
        }
        let mut answer = ffi::Packet::default();
        let (at, len) = parts(self.payload);
        // SAFETY: as above.
        unsafe {
            ffi::etherparse_packet_lax_from_link_type(ffi::LINKTYPE_RAW, at, len, true, &mut answer)
        }
        Some(Checksums::of(&answer))
    }

    // What the library answers of a frame if nothing stopped it.
    fn whole(frame: &'a [u8], answer: &ffi::Packet) -> Result<SlicedPacket<'a>, SliceError> {
        match SliceError::of(&answer.stop) {
            None => Ok(SlicedPacket::of(frame, answer)),
            Some(error) => Err(error),
        }
    }

    pub(crate) fn of(frame: &'a [u8], answer: &ffi::Packet) -> SlicedPacket<'a> {
        let transport = &answer.transport;
        let ports = (transport.source_port, transport.destination_port);
        SlicedPacket {
            link: LinkSlice::of(frame, &answer.link),
            vlan: VlanSlice::of(frame, &answer.link),
            ether_type: answer
                .link
                .has_ether_type
                .then_some(EtherType(answer.link.ether_type)),
            payload: part(frame, answer.link.payload),
            net: NetSlice::of(frame, &answer.ip),
            transport: TransportSlice::of(frame, transport),
            ports: transport.has_ports.then_some(ports),
            checksums: Checksums::of(answer),
        }
    }
}
