use crate::err::ipv6::HeaderSliceError;
use crate::{ffi, parts, IpDscp, IpEcn, IpNumber, Ipv6FlowLabel, Ipv6Header};
use core::fmt;
use core::net::Ipv6Addr;

/// A view of an IPv6 header in a slice: the bytes stay where they are.
#[derive(Clone, Copy)]
pub struct Ipv6HeaderSlice<'a> {
    // The bytes of the header.
    slice: &'a [u8],
    // What the library says of them.
    view: ffi::Ipv6ViewFields,
}

impl<'a> Ipv6HeaderSlice<'a> {
    /// A view of the header at the front of a slice.
    ///
    /// # Errors
    ///
    /// Those of [`Ipv6Header::from_slice`].
    pub fn from_slice(slice: &'a [u8]) -> Result<Ipv6HeaderSlice<'a>, HeaderSliceError> {
        let (at, len) = parts(slice);
        // SAFETY: the pointer and the length are those of one slice.
        let seen = unsafe { ffi::etherparse_ipv6_view(at, len) };
        if seen.error.kind != ffi::OK {
            return Err(HeaderSliceError::of(&seen.error));
        }
        Ok(Ipv6HeaderSlice {
            slice: &slice[..seen.rest.offset],
            view: seen.view,
        })
    }

    /// The bytes of the header.
    pub fn slice(&self) -> &'a [u8] {
        self.slice
    }

    /// The version, which is 6.
    pub fn version(&self) -> u8 {
        6
    }

    /// The traffic class.
    pub fn traffic_class(&self) -> u8 {
        self.view.traffic_class
    }

    /// The explicit congestion notification: the lower 2 bits of the traffic class.
    pub fn ecn(&self) -> IpEcn {
        IpEcn::try_new(self.view.ecn).expect("an ECN")
    }

    /// The differentiated services code point: the upper 6 bits of the traffic class.
    pub fn dscp(&self) -> IpDscp {
        IpDscp::try_new(self.view.dscp).expect("a DSCP")
    }

    /// The flow label.
    pub fn flow_label(&self) -> Ipv6FlowLabel {
        Ipv6FlowLabel::try_new(self.view.flow_label).expect("a flow label")
    }

    /// The length in bytes of all that follows the header, extension headers included.
    pub fn payload_length(&self) -> u16 {
        self.view.payload_length
    }

    /// What follows the header: an extension header or an upper-layer protocol.
    pub fn next_header(&self) -> IpNumber {
        IpNumber(self.view.next_header)
    }

    /// Decremented by every router; at 0 the packet is discarded.
    pub fn hop_limit(&self) -> u8 {
        self.view.hop_limit
    }

    /// The address of the sender.
    pub fn source(&self) -> [u8; 16] {
        self.view.source
    }

    /// The address of the sender.
    pub fn source_addr(&self) -> Ipv6Addr {
        Ipv6Addr::from(self.source())
    }

    /// The address of the receiver.
    pub fn destination(&self) -> [u8; 16] {
        self.view.destination
    }

    /// The address of the receiver.
    pub fn destination_addr(&self) -> Ipv6Addr {
        Ipv6Addr::from(self.destination())
    }

    /// The header.
    pub fn to_header(&self) -> Ipv6Header {
        Ipv6Header {
            traffic_class: self.traffic_class(),
            flow_label: self.flow_label(),
            payload_length: self.payload_length(),
            next_header: self.next_header(),
            hop_limit: self.hop_limit(),
            source: self.source(),
            destination: self.destination(),
        }
    }

    /// The length of the header, which is 40 bytes for every header.
    pub const fn header_len(&self) -> usize {
        Ipv6Header::LEN
    }
}

impl fmt::Debug for Ipv6HeaderSlice<'_> {
    fn fmt(&self, f: &mut fmt::Formatter<'_>) -> fmt::Result {
        f.debug_struct("Ipv6HeaderSlice").field("slice", &self.slice).finish()
    }
}

impl PartialEq for Ipv6HeaderSlice<'_> {
    fn eq(&self, other: &Self) -> bool {
        self.slice == other.slice
    }
}

impl Eq for Ipv6HeaderSlice<'_> {}
