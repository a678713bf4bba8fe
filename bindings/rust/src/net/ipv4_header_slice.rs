use super::ipv4_header::{lengths_of, payload_len};
use crate::err::ipv4::HeaderSliceError;
use crate::err::LenError;
use crate::{ffi, parts, IpDscp, IpEcn, IpFragOffset, IpNumber, Ipv4Header, Ipv4Options};
use core::fmt;
use core::net::Ipv4Addr;

/// A view of an IPv4 header in a slice: the bytes stay where they are.
#[derive(Clone, Copy)]
pub struct Ipv4HeaderSlice<'a> {
    // The bytes of the header.
    slice: &'a [u8],
    // What the library says of them.
    view: ffi::Ipv4ViewFields,
}

impl<'a> Ipv4HeaderSlice<'a> {
    /// A view of the header at the front of a slice.
    ///
    /// # Errors
    ///
    /// Those of [`Ipv4Header::from_slice`].
    pub fn from_slice(slice: &'a [u8]) -> Result<Ipv4HeaderSlice<'a>, HeaderSliceError> {
        let (at, len) = parts(slice);
        // SAFETY: the pointer and the length are those of one slice.
        let seen = unsafe { ffi::etherparse_ipv4_view(at, len) };
        if seen.error.kind != ffi::OK {
            return Err(HeaderSliceError::of(&seen.error));
        }
        Ok(Ipv4HeaderSlice {
            slice: &slice[..seen.rest.offset],
            view: seen.view,
        })
    }

    /// The bytes of the header, with its options.
    pub fn slice(&self) -> &'a [u8] {
        self.slice
    }

    /// The version, which is 4.
    pub fn version(&self) -> u8 {
        4
    }

    /// The length of the header in words of 4 bytes, 5 to 15.
    pub fn ihl(&self) -> u8 {
        self.view.ihl
    }

    /// The differentiated services code point.
    pub fn dcp(&self) -> IpDscp {
        IpDscp::try_new(self.view.dscp).expect("a DSCP")
    }

    /// The explicit congestion notification.
    pub fn ecn(&self) -> IpEcn {
        IpEcn::try_new(self.view.ecn).expect("an ECN")
    }

    /// The length of the header and what follows it, in bytes.
    pub fn total_len(&self) -> u16 {
        self.view.total_len
    }

    /// The length of the payload in bytes: the total length, less the header.
    ///
    /// # Errors
    ///
    /// A `LenError` where the total length is below the length of the header.
    pub fn payload_len(&self) -> Result<u16, LenError> {
        payload_len(&lengths_of(self.total_len(), self.options().len() as u8))
    }

    /// Equal in all fragments of one packet.
    pub fn identification(&self) -> u16 {
        self.view.identification
    }

    /// Whether routers must not fragment the packet.
    pub fn dont_fragment(&self) -> bool {
        self.view.dont_fragment
    }

    /// Whether more fragments follow this one.
    pub fn more_fragments(&self) -> bool {
        self.view.more_fragments
    }

    /// Where the fragment stands in the packet, in units of 8 bytes.
    pub fn fragments_offset(&self) -> IpFragOffset {
        IpFragOffset::try_new(self.view.fragment_offset).expect("a fragment offset")
    }

    /// Decremented by every router; at 0 the packet is discarded.
    pub fn ttl(&self) -> u8 {
        self.view.time_to_live
    }

    /// The protocol of what follows the header.
    pub fn protocol(&self) -> IpNumber {
        IpNumber(self.view.protocol)
    }

    /// The checksum that the header has, right or wrong.
    pub fn header_checksum(&self) -> u16 {
        self.view.header_checksum
    }

    /// The address of the sender.
    pub fn source(&self) -> [u8; 4] {
        self.view.source
    }

    /// The address of the sender.
    pub fn source_addr(&self) -> Ipv4Addr {
        Ipv4Addr::from(self.source())
    }

    /// The address of the receiver.
    pub fn destination(&self) -> [u8; 4] {
        self.view.destination
    }

    /// The address of the receiver.
    pub fn destination_addr(&self) -> Ipv4Addr {
        Ipv4Addr::from(self.destination())
    }

    /// The bytes of the options.
    pub fn options(&self) -> &'a [u8] {
        &self.slice[Ipv4Header::MIN_LEN..]
    }

    /// Whether the payload is a fragment: more fragments follow it, or its offset is not 0.
    pub fn is_fragmenting_payload(&self) -> bool {
        self.view.is_fragmenting_payload
    }

    /// The header, with a copy of the options.
    pub fn to_header(&self) -> Ipv4Header {
        Ipv4Header {
            dscp: self.dcp(),
            ecn: self.ecn(),
            total_len: self.total_len(),
            identification: self.identification(),
            dont_fragment: self.dont_fragment(),
            more_fragments: self.more_fragments(),
            fragment_offset: self.fragments_offset(),
            time_to_live: self.ttl(),
            protocol: self.protocol(),
            header_checksum: self.header_checksum(),
            source: self.source(),
            destination: self.destination(),
            options: Ipv4Options::try_from(self.options()).expect("options of a header"),
        }
    }
}

impl fmt::Debug for Ipv4HeaderSlice<'_> {
    fn fmt(&self, f: &mut fmt::Formatter<'_>) -> fmt::Result {
        f.debug_struct("Ipv4HeaderSlice").field("slice", &self.slice).finish()
    }
}

impl PartialEq for Ipv4HeaderSlice<'_> {
    fn eq(&self, other: &Self) -> bool {
        self.slice == other.slice
    }
}

impl Eq for Ipv4HeaderSlice<'_> {}
