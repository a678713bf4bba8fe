use crate::err::ipv6::{ChainError, HeaderSliceError};
use crate::err::{LenError, ValueTooBigError, ValueType};
use crate::{ffi, parts, IpDscp, IpEcn, IpNumber, Ipv6FlowLabel};
use core::net::Ipv6Addr;

/// An IPv6 header without its extension headers (RFC 8200 section 3).
#[derive(Clone, Debug, PartialEq, Eq)]
pub struct Ipv6Header {
    /// The traffic class: the DSCP in the upper 6 bits, the ECN in the lower 2.
    pub traffic_class: u8,
    /// The flow label, which marks packets that routers should treat alike.
    pub flow_label: Ipv6FlowLabel,
    /// The length in bytes of all that follows the header, extension headers included.
    pub payload_length: u16,
    /// What follows the header: an extension header or an upper-layer protocol.
    pub next_header: IpNumber,
    /// Decremented by every router; at 0 the packet is discarded.
    pub hop_limit: u8,
    /// The address of the sender.
    pub source: [u8; 16],
    /// The address of the receiver.
    pub destination: [u8; 16],
}

impl Ipv6Header {
    /// The length of every header, in bytes.
    pub const LEN: usize = 40;

    /// The header at the front of a slice, and all the bytes after it.
    ///
    /// # Errors
    ///
    /// `Len` where the slice has fewer than 40 bytes; else `Content` where the version is not 6.
    pub fn from_slice(slice: &[u8]) -> Result<(Ipv6Header, &[u8]), HeaderSliceError> {
        let (at, len) = parts(slice);
        // SAFETY: the pointer and the length are those of one slice.
        let read = unsafe { ffi::etherparse_ipv6_read(at, len) };
        if read.error.kind != ffi::OK {
            return Err(HeaderSliceError::of(&read.error));
        }
        Ok((Ipv6Header::of(&read.fields), &slice[read.rest.offset..]))
    }

    /// An older name of [`Ipv6Header::from_slice`].
    ///
    /// # Errors
    ///
    /// Those of [`Ipv6Header::from_slice`].
    pub fn read_from_slice(slice: &[u8]) -> Result<(Ipv6Header, &[u8]), HeaderSliceError> {
        Ipv6Header::from_slice(slice)
    }

    /// The 40 bytes of the header, in network byte order.
    pub fn to_bytes(&self) -> [u8; 40] {
        let fields = ffi::Ipv6Fields {
            source: self.source,
            destination: self.destination,
            flow_label: self.flow_label.value(),
            payload_length: self.payload_length,
            traffic_class: self.traffic_class,
            next_header: self.next_header.0,
            hop_limit: self.hop_limit,
        };
        // SAFETY: the reference is to fields.
        let written = unsafe { ffi::etherparse_ipv6_write(&fields) };
        debug_assert!(written.len == 40, "the flow label is within its bound");
        written.bytes
    }

    /// The length of the header, which is 40 bytes for every header.
    pub fn header_len(&self) -> usize {
        Ipv6Header::LEN
    }

    /// Sets the payload length, in bytes.
    ///
    /// # Errors
    ///
    /// A `ValueTooBigError` where the length is above 65535. The header is then as it was.
    pub fn set_payload_length(&mut self, size: usize) -> Result<(), ValueTooBigError<usize>> {
        self.payload_length = u16::try_from(size).map_err(|_| ValueTooBigError {
            actual: size,
            max_allowed: usize::from(u16::MAX),
            value_type: ValueType::Ipv6PayloadLength,
        })?;
        Ok(())
    }

    /// The explicit congestion notification: the lower 2 bits of the traffic class.
    pub fn ecn(&self) -> IpEcn {
        IpEcn::try_new(self.traffic_class & 0b11).expect("an ECN")
    }

    /// Sets the explicit congestion notification, and keeps the differentiated services code point.
    pub fn set_ecn(&mut self, ecn: IpEcn) {
        self.traffic_class = (self.traffic_class & 0b1111_1100) | ecn.value();
    }

    /// The differentiated services code point: the upper 6 bits of the traffic class.
    pub fn dscp(&self) -> IpDscp {
        IpDscp::try_new(self.traffic_class >> 2).expect("a DSCP")
    }

    /// Sets the differentiated services code point, and keeps the explicit congestion notification.
    pub fn set_dscp(&mut self, dscp: IpDscp) {
        self.traffic_class = (self.traffic_class & 0b11) | (dscp.value() << 2);
    }

    /// The address of the sender.
    pub fn source_addr(&self) -> Ipv6Addr {
        Ipv6Addr::from(self.source)
    }

    /// The address of the receiver.
    pub fn destination_addr(&self) -> Ipv6Addr {
        Ipv6Addr::from(self.destination)
    }

    /// Skips the extension header of a number at the front of a slice: the number of what follows
    /// it, and all the bytes after it. A number of no header that can be skipped is answered with
    /// the whole slice.
    ///
    /// # Errors
    ///
    /// A `LenError` where the slice is shorter than the header says.
    pub fn skip_header_extension_in_slice(
        slice: &[u8],
        next_header: IpNumber,
    ) -> Result<(IpNumber, &[u8]), LenError> {
        let (at, len) = parts(slice);
        // SAFETY: the pointer and the length are those of one slice.
        let skipped = unsafe { ffi::etherparse_ipv6_skip(at, len, next_header.0) };
        ended(slice, &skipped).map_err(LenError::of)
    }

    /// Skips all extension headers at the front of a slice, of which the first has this number: the
    /// first number that can not be skipped, and all the bytes after the header that gave it. A
    /// fragment header is skipped whatever its offset.
    ///
    /// # Errors
    ///
    /// A `LenError` where a header is incomplete.
    pub fn skip_all_header_extensions_in_slice(
        slice: &[u8],
        next_header: IpNumber,
    ) -> Result<(IpNumber, &[u8]), LenError> {
        let (at, len) = parts(slice);
        // SAFETY: the pointer and the length are those of one slice.
        let walk = unsafe { ffi::etherparse_ipv6_walk(at, len, next_header.0) };
        ended(slice, &walk).map_err(LenError::of)
    }

    /// The same past at most `limit` headers. The crate `etherparse` has no such call.
    ///
    /// # Errors
    ///
    /// `TooMany` where `limit` headers were skipped and the number after them is that of one more;
    /// else `Len` where a header is incomplete.
    pub fn skip_header_extensions_up_to(
        slice: &[u8],
        next_header: IpNumber,
        limit: usize,
    ) -> Result<(IpNumber, &[u8]), ChainError> {
        let (at, len) = parts(slice);
        // SAFETY: the pointer and the length are those of one slice.
        let walk = unsafe { ffi::etherparse_ipv6_walk_up_to(at, len, next_header.0, limit) };
        ended(slice, &walk).map_err(ChainError::of)
    }

    /// Whether this is the number of an extension header that can be skipped.
    pub fn is_skippable_header_extension(ip_protocol_number: IpNumber) -> bool {
        // With no bytes a header that can be skipped is incomplete, and nothing else is refused.
        Ipv6Header::skip_header_extension_in_slice(&[], ip_protocol_number).is_err()
    }

    fn of(fields: &ffi::Ipv6Fields) -> Ipv6Header {
        Ipv6Header {
            traffic_class: fields.traffic_class,
            flow_label: Ipv6FlowLabel::try_new(fields.flow_label).expect("a flow label"),
            payload_length: fields.payload_length,
            next_header: IpNumber(fields.next_header),
            hop_limit: fields.hop_limit,
            source: fields.source,
            destination: fields.destination,
        }
    }
}

// Where a walk of a slice ended, or its error.
fn ended<'a, 'b>(
    slice: &'a [u8],
    walk: &'b ffi::Ipv6WalkAnswer,
) -> Result<(IpNumber, &'a [u8]), &'b ffi::Error> {
    if walk.error.kind != ffi::OK {
        return Err(&walk.error);
    }
    Ok((IpNumber(walk.next_header), &slice[walk.rest.offset..]))
}

/// All fields are 0, but for the next header, which is 255.
impl Default for Ipv6Header {
    fn default() -> Ipv6Header {
        // SAFETY: nothing is passed.
        Ipv6Header::of(&unsafe { ffi::etherparse_ipv6_default() })
    }
}
