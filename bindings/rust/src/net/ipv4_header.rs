use crate::err::ipv4::{BadOptionsLen, HeaderSliceError};
use crate::err::{LenError, ValueTooBigError, ValueType};
use crate::{ffi, parts, IpDscp, IpEcn, IpFragOffset, IpNumber, Ipv4Options};
use core::fmt;
use core::net::Ipv4Addr;
use core::ops::{Deref, DerefMut};

/// An IPv4 header with its options (RFC 791 section 3.1).
#[derive(Clone, Debug, PartialEq, Eq, Hash)]
pub struct Ipv4Header {
    /// The differentiated services code point.
    pub dscp: IpDscp,
    /// The explicit congestion notification.
    pub ecn: IpEcn,
    /// The length of the header and what follows it, in bytes.
    pub total_len: u16,
    /// Equal in all fragments of one packet.
    pub identification: u16,
    /// Whether routers must not fragment the packet.
    pub dont_fragment: bool,
    /// Whether more fragments follow this one.
    pub more_fragments: bool,
    /// Where the fragment stands in the packet, in units of 8 bytes.
    pub fragment_offset: IpFragOffset,
    /// Decremented by every router; at 0 the packet is discarded.
    pub time_to_live: u8,
    /// The protocol of what follows the header.
    pub protocol: IpNumber,
    /// The checksum over the header, right or wrong: bytes 10 and 11, the high byte first.
    pub header_checksum: u16,
    /// The address of the sender.
    pub source: [u8; 4],
    /// The address of the receiver.
    pub destination: [u8; 4],
    /// What follows the fixed fields, 0 to 40 bytes in words of 4.
    pub options: Ipv4Options,
}

impl Ipv4Header {
    /// The length of a header with no options, in bytes.
    pub const MIN_LEN: usize = 20;

    /// The length of a header with no options, in bytes.
    pub const MIN_LEN_U16: u16 = 20;

    /// The length of a header with all the options that it has room for, in bytes.
    pub const MAX_LEN: usize = 60;

    /// A header without options for a payload of this length in bytes. All else is as in the
    /// default, so the checksum is 0.
    ///
    /// # Errors
    ///
    /// A `ValueTooBigError` where the payload is longer than 65515 bytes.
    pub fn new(
        payload_len: u16,
        time_to_live: u8,
        protocol: IpNumber,
        source: [u8; 4],
        destination: [u8; 4],
    ) -> Result<Ipv4Header, ValueTooBigError<u16>> {
        // SAFETY: both references are to four bytes.
        let made = unsafe {
            ffi::etherparse_ipv4_new(payload_len, time_to_live, protocol.0, &source, &destination)
        };
        if made.error.kind != ffi::OK {
            return Err(ValueTooBigError {
                actual: payload_len,
                // The greatest length has 16 bits.
                max_allowed: made.error.limit as u16,
                value_type: ValueType::Ipv4PayloadLength,
            });
        }
        Ok(Ipv4Header::of(&made.fields))
    }

    /// The header at the front of a slice, and all the bytes after it.
    ///
    /// # Errors
    ///
    /// In this order: `Len` where the slice has fewer than 20 bytes; `Content` where the version is
    /// not 4, or the IHL is below 5; `Len` where the slice has fewer bytes than the IHL says.
    pub fn from_slice(slice: &[u8]) -> Result<(Ipv4Header, &[u8]), HeaderSliceError> {
        let (at, len) = parts(slice);
        // SAFETY: the pointer and the length are those of one slice.
        let read = unsafe { ffi::etherparse_ipv4_read(at, len) };
        if read.error.kind != ffi::OK {
            return Err(HeaderSliceError::of(&read.error));
        }
        Ok((Ipv4Header::of(&read.fields), &slice[read.rest.offset..]))
    }

    /// An older name of [`Ipv4Header::from_slice`].
    ///
    /// # Errors
    ///
    /// Those of [`Ipv4Header::from_slice`].
    pub fn read_from_slice(slice: &[u8]) -> Result<(Ipv4Header, &[u8]), HeaderSliceError> {
        Ipv4Header::from_slice(slice)
    }

    /// The bytes of the header, in network byte order, with the reserved bit 0 and the checksum
    /// that the header has.
    pub fn to_bytes(&self) -> Ipv4HeaderBytes {
        // SAFETY: the reference is to fields.
        let written = unsafe { ffi::etherparse_ipv4_write(&self.fields()) };
        Ipv4HeaderBytes { written }
    }

    /// The checksum that the header should have, whatever `header_checksum` is.
    pub fn calc_header_checksum(&self) -> u16 {
        // SAFETY: the reference is to fields.
        unsafe { ffi::etherparse_ipv4_header_checksum(&self.fields()) }.checksum
    }

    /// The length of the header in words of 4 bytes, 5 to 15.
    pub fn ihl(&self) -> u8 {
        self.lengths().ihl
    }

    /// The length of the header with its options in bytes, 20 to 60 in steps of 4.
    pub fn header_len(&self) -> usize {
        usize::from(self.lengths().header_len)
    }

    /// The length of the longest payload that fits after the header, in bytes.
    pub fn max_payload_len(&self) -> u16 {
        self.lengths().max_payload_len
    }

    /// The length of the payload in bytes: the total length, less the header.
    ///
    /// # Errors
    ///
    /// A `LenError` where the total length is below the length of the header.
    pub fn payload_len(&self) -> Result<u16, LenError> {
        payload_len(&self.lengths())
    }

    /// Sets the total length to that of the header and a payload of this length, in bytes.
    ///
    /// # Errors
    ///
    /// A `ValueTooBigError` where the payload is above [`Ipv4Header::max_payload_len`]. The header
    /// is then as it was.
    pub fn set_payload_len(&mut self, value: usize) -> Result<(), ValueTooBigError<usize>> {
        let lengths = self.lengths();
        let max_allowed = usize::from(lengths.max_payload_len);
        if value > max_allowed {
            return Err(ValueTooBigError {
                actual: value,
                max_allowed,
                value_type: ValueType::Ipv4PayloadLength,
            });
        }
        self.total_len = u16::from(lengths.header_len) + value as u16;
        Ok(())
    }

    /// The bytes of the options: an older way to read the field `options`.
    pub fn options(&self) -> &[u8] {
        self.options.as_slice()
    }

    /// Puts these bytes in the place of the options: an older way to set the field.
    ///
    /// # Errors
    ///
    /// A `BadOptionsLen` where there are more than 40 bytes, or not whole words of 4 bytes. The
    /// header is then as it was.
    pub fn set_options(&mut self, data: &[u8]) -> Result<(), BadOptionsLen> {
        self.options = Ipv4Options::try_from(data)?;
        Ok(())
    }

    /// Whether the payload is a fragment: more fragments follow it, or its offset is not 0.
    pub fn is_fragmenting_payload(&self) -> bool {
        self.more_fragments || self.fragment_offset != IpFragOffset::ZERO
    }

    /// Sets the time to live, and updates the stored checksum for it. A correct checksum stays
    /// correct; an incorrect one is not repaired. The crate `etherparse` has no such call.
    pub fn set_time_to_live(&mut self, time_to_live: u8) {
        let mut fields = self.fields();
        // SAFETY: the reference is to fields.
        let is_set = unsafe { ffi::etherparse_ipv4_set_time_to_live(&mut fields, time_to_live) };
        debug_assert!(is_set, "the fields of a header are within their bounds");
        self.time_to_live = fields.time_to_live;
        self.header_checksum = fields.header_checksum;
    }

    /// Lowers the time to live by one, as a router does, with the checksum. `false`, and the header
    /// as it was, where the time to live is 0 or 1. The crate `etherparse` has no such call.
    pub fn lower_time_to_live(&mut self) -> bool {
        if self.time_to_live < 2 {
            return false;
        }
        self.set_time_to_live(self.time_to_live - 1);
        true
    }

    /// The address of the sender.
    pub fn source_addr(&self) -> Ipv4Addr {
        Ipv4Addr::from(self.source)
    }

    /// The address of the receiver.
    pub fn destination_addr(&self) -> Ipv4Addr {
        Ipv4Addr::from(self.destination)
    }

    fn lengths(&self) -> ffi::Ipv4LengthsAnswer {
        lengths_of(self.total_len, self.options.len_u8())
    }

    fn fields(&self) -> ffi::Ipv4Fields {
        ffi::Ipv4Fields {
            dscp: self.dscp.value(),
            ecn: self.ecn.value(),
            total_len: self.total_len,
            identification: self.identification,
            dont_fragment: self.dont_fragment,
            more_fragments: self.more_fragments,
            fragment_offset: self.fragment_offset.value(),
            time_to_live: self.time_to_live,
            protocol: self.protocol.0,
            header_checksum: self.header_checksum,
            source: self.source,
            destination: self.destination,
            options_len: self.options.len_u8(),
            options: self.options.buffer(),
        }
    }

    // The header of fields that the library gave, which are within their bounds.
    pub(crate) fn of(fields: &ffi::Ipv4Fields) -> Ipv4Header {
        Ipv4Header {
            dscp: IpDscp::try_new(fields.dscp).expect("a DSCP"),
            ecn: IpEcn::try_new(fields.ecn).expect("an ECN"),
            total_len: fields.total_len,
            identification: fields.identification,
            dont_fragment: fields.dont_fragment,
            more_fragments: fields.more_fragments,
            fragment_offset: IpFragOffset::try_new(fields.fragment_offset)
                .expect("a fragment offset"),
            time_to_live: fields.time_to_live,
            protocol: IpNumber(fields.protocol),
            header_checksum: fields.header_checksum,
            source: fields.source,
            destination: fields.destination,
            options: Ipv4Options::of(fields.options_len, fields.options),
        }
    }
}

// The lengths of a header with so many bytes of options, a length that options can have.
pub(crate) fn lengths_of(total_len: u16, options_len: u8) -> ffi::Ipv4LengthsAnswer {
    // SAFETY: numbers alone are passed.
    unsafe { ffi::etherparse_ipv4_lengths(total_len, options_len) }
}

pub(crate) fn payload_len(lengths: &ffi::Ipv4LengthsAnswer) -> Result<u16, LenError> {
    if lengths.error.kind != ffi::OK {
        return Err(LenError::of(&lengths.error));
    }
    Ok(lengths.payload_len)
}

/// The packet must not be fragmented and its protocol is 255. All else is 0, false or empty.
impl Default for Ipv4Header {
    fn default() -> Ipv4Header {
        // SAFETY: nothing is passed.
        Ipv4Header::of(&unsafe { ffi::etherparse_ipv4_default() })
    }
}

/// The bytes of an IPv4 header, 20 to 60: it is used as a slice.
#[derive(Clone)]
pub struct Ipv4HeaderBytes {
    written: ffi::Ipv4Bytes,
}

impl Ipv4HeaderBytes {
    /// The bytes.
    pub fn as_slice(&self) -> &[u8] {
        &self.written.bytes[..usize::from(self.written.len)]
    }

    /// The bytes, to be changed.
    pub fn as_mut_slice(&mut self) -> &mut [u8] {
        &mut self.written.bytes[..usize::from(self.written.len)]
    }
}

impl Deref for Ipv4HeaderBytes {
    type Target = [u8];

    fn deref(&self) -> &[u8] {
        self.as_slice()
    }
}

impl DerefMut for Ipv4HeaderBytes {
    fn deref_mut(&mut self) -> &mut [u8] {
        self.as_mut_slice()
    }
}

impl AsRef<[u8]> for Ipv4HeaderBytes {
    fn as_ref(&self) -> &[u8] {
        self.as_slice()
    }
}

impl fmt::Debug for Ipv4HeaderBytes {
    fn fmt(&self, f: &mut fmt::Formatter<'_>) -> fmt::Result {
        self.as_slice().fmt(f)
    }
}

impl PartialEq for Ipv4HeaderBytes {
    fn eq(&self, other: &Ipv4HeaderBytes) -> bool {
        self.as_slice() == other.as_slice()
    }
}

impl Eq for Ipv4HeaderBytes {}
