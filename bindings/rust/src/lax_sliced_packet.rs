use crate::batch::{LaxBatch, PacketBuffer};
use crate::err::packet::SliceError;
use crate::err::LenError;
use crate::{ffi, parts, EtherType, LinkType, SlicedPacket};
use core::ops::Deref;

/// The layers of a frame as far as they can be read: of one that a capture truncated, of one that
/// is damaged, of a packet whose sender left its length to the network card, or of a jumbogram. It
/// has the fields and the calls of [`SlicedPacket`].
///
/// ```
/// use etherparse_proved::LaxSlicedPacket;
///
/// // The first four bytes of a TCP header, in an IPv4 packet that a capture truncated.
/// let packet = [0x45, 0, 0, 40, 0, 0, 0, 0, 64, 6, 0, 0, 10, 0, 0, 1, 10, 0, 0, 2, 4, 0, 0, 80];
/// let lax = LaxSlicedPacket::from_ip(&packet)?;
/// assert!(lax.stop.is_some() && lax.transport.is_none());
/// assert_eq!(lax.ports(), Some((1024, 80)));
/// # Ok::<(), etherparse_proved::err::packet::SliceError>(())
/// ```
#[derive(Clone, Debug, PartialEq, Eq)]
pub struct LaxSlicedPacket<'a> {
    /// The layers. If the frame ends within a VLAN tag, `ether_type` is that of the tag and
    /// `payload` what there is of it. If it ends within the IP packet, after its header, `net` has
    /// its parts, and the transport header is there if it is whole.
    pub packet: SlicedPacket<'a>,
    /// Why [`SlicedPacket`] refuses the frame; `None` if it does not. Each place counts from the
    /// start of the frame.
    pub stop: Option<SliceError>,
}

impl<'a> LaxSlicedPacket<'a> {
    /// The layers of an Ethernet frame (IEEE 802.3 section 3.1.1).
    ///
    /// # Errors
    ///
    /// A `LenError` if the frame ends within its link header.
    pub fn from_ethernet(frame: &'a [u8]) -> Result<LaxSlicedPacket<'a>, LenError> {
        LaxSlicedPacket::after_link(LinkType::ETHERNET, frame)
    }

    /// The layers of a Linux cooked capture.
    ///
    /// # Errors
    ///
    /// A `LenError` if the frame ends within its link header.
    pub fn from_linux_sll(frame: &'a [u8]) -> Result<LaxSlicedPacket<'a>, LenError> {
        LaxSlicedPacket::after_link(LinkType::LINUX_SLL, frame)
    }

    /// The layers of a Linux cooked capture of version 2. The crate `etherparse` has no such call.
    ///
    /// # Errors
    ///
    /// A `LenError` if the frame ends within its link header.
    pub fn from_linux_sll2(frame: &'a [u8]) -> Result<LaxSlicedPacket<'a>, LenError> {
        LaxSlicedPacket::after_link(LinkType::LINUX_SLL2, frame)
    }

    /// The layers of a frame of a loopback interface whose family is in the byte order of the
    /// machine that captured it. The crate `etherparse` has no such call.
    ///
    /// # Errors
    ///
    /// A `LenError` if the frame ends within its link header.
    pub fn from_loopback(frame: &'a [u8]) -> Result<LaxSlicedPacket<'a>, LenError> {
        LaxSlicedPacket::after_link(LinkType::NULL, frame)
    }

    /// The layers of an IP packet of either version.
    ///
    /// # Errors
    ///
    /// Why there is no IP packet: no byte, a version that is neither 4 nor 6, a header that is not
    /// whole or not right, or a total length below that of the header, but not 0.
    pub fn from_ip(packet: &'a [u8]) -> Result<LaxSlicedPacket<'a>, SliceError> {
        let lax = LaxSlicedPacket::from_link_type(LinkType::RAW, packet);
        match lax.stop {
            Some(error) if lax.packet.net.is_none() => Err(error),
            _ => Ok(lax),
        }
    }

    /// The layers of a frame of a link type. If frames of that type are not read, or if the frame
    /// ends within its link header, `stop` says so and there are no layers. The crate `etherparse`
    /// has no such call.
    pub fn from_link_type(link_type: LinkType, frame: &'a [u8]) -> LaxSlicedPacket<'a> {
        let mut answer = ffi::Packet::default();
        let (at, len) = parts(frame);
        // SAFETY: the pointer and the length are those of one slice, and the answer is another.
        unsafe {
            ffi::etherparse_packet_lax_from_link_type(link_type.0, at, len, false, &mut answer)
        }
        LaxSlicedPacket::of(frame, &answer)
    }

    /// The layers of bytes that an EtherType names: a VLAN tag and what it tags, an IP packet, or
    /// another protocol.
    pub fn from_ether_type(ether_type: EtherType, bytes: &'a [u8]) -> LaxSlicedPacket<'a> {
        let mut answer = ffi::Packet::default();
        let (at, len) = parts(bytes);
        // SAFETY: as above.
        unsafe {
            ffi::etherparse_packet_lax_from_ether_type(ether_type.0, at, len, false, &mut answer)
        }
        LaxSlicedPacket::of(bytes, &answer)
    }

    /// The layers of each of many frames of a link type, as [`LaxSlicedPacket::from_link_type`]
    /// gives them, with one call of the library for as many frames as the buffer has room for. If
    /// `checksums` is true, the checksums are judged, which reads all bytes of the packets; then
    /// [`SlicedPacket::verdict`] has the verdict at hand. The crate `etherparse` has no such call.
    ///
    /// ```
    /// use etherparse_proved::{LaxSlicedPacket, LinkType, PacketBuffer};
    ///
    /// let frames: [&[u8]; 3] = [&[0x45, 0], &[], &[0x60; 40]];
    /// let mut buffer = PacketBuffer::<2>::new();
    /// let batch = LaxSlicedPacket::batch(LinkType::RAW, frames, false, &mut buffer);
    /// for ((frame, packet), expected) in batch.zip(frames) {
    ///     assert_eq!(frame, expected);
    ///     assert_eq!(packet, LaxSlicedPacket::from_link_type(LinkType::RAW, frame));
    /// }
    /// ```
    pub fn batch<'b, I, const N: usize>(
        link_type: LinkType,
        frames: I,
        checksums: bool,
        buffer: &'b mut PacketBuffer<N>,
    ) -> LaxBatch<'a, 'b, I::IntoIter, N>
    where
        I: IntoIterator<Item = &'a [u8]>,
    {
        LaxBatch::new(link_type, frames.into_iter(), checksums, buffer)
    }

    // The layers of a frame of a link type that is read.
    fn after_link(link_type: LinkType, frame: &'a [u8]) -> Result<LaxSlicedPacket<'a>, LenError> {
        let lax = LaxSlicedPacket::from_link_type(link_type, frame);
        match lax.stop {
            Some(SliceError::Len(error)) if lax.packet.link.is_none() => Err(error),
            _ => Ok(lax),
        }
    }

    pub(crate) fn of(frame: &'a [u8], answer: &ffi::Packet) -> LaxSlicedPacket<'a> {
        LaxSlicedPacket {
            packet: SlicedPacket::of(frame, answer),
            stop: SliceError::of(&answer.stop),
        }
    }
}

impl<'a> Deref for LaxSlicedPacket<'a> {
    type Target = SlicedPacket<'a>;

    fn deref(&self) -> &SlicedPacket<'a> {
        &self.packet
    }
}
