use crate::{u16_at, u32_at};

/// A view of a TCP header with its options (RFC 9293 section 3.1).
#[derive(Clone, Copy, Debug, PartialEq, Eq)]
pub struct TcpHeaderSlice<'a> {
    // 20 to 60 bytes, as many as the data offset says.
    pub(super) slice: &'a [u8],
}

macro_rules! flags {
    ($($name:ident $bit:literal $doc:literal)*) => { $(
        #[doc = $doc]
        pub fn $name(&self) -> bool {
            self.flags() & (1 << $bit) != 0
        }
    )* };
}

ports!(TcpHeaderSlice);

impl<'a> TcpHeaderSlice<'a> {
    /// The sequence number of the first byte of data, or of the SYN: bytes 4 to 7.
    pub fn sequence_number(&self) -> u32 {
        u32_at(self.slice, 4)
    }

    /// The next sequence number that the sender expects, if ACK is set: bytes 8 to 11.
    pub fn acknowledgment_number(&self) -> u32 {
        u32_at(self.slice, 8)
    }

    /// The length of the header in words of 4 bytes, 5 to 15: the upper half of byte 12.
    pub fn data_offset(&self) -> u8 {
        self.slice[12] >> 4
    }

    /// CWR, ECE, URG, ACK, PSH, RST, SYN and FIN, from the highest bit to the lowest: byte 13. The
    /// crate `etherparse` has no such call.
    pub fn flags(&self) -> u8 {
        self.slice[13]
    }

    flags! {
        fin 0 "Whether the sender has no more data."
        syn 1 "Whether sequence numbers are synchronized."
        rst 2 "Whether the connection is reset."
        psh 3 "Whether the receiver should pass on the data at once."
        ack 4 "Whether the acknowledgment number counts."
        urg 5 "Whether the urgent pointer counts."
        ece 6 "Whether the sender was told of congestion (RFC 3168)."
        cwr 7 "Whether the sender has reduced its congestion window (RFC 3168)."
    }

    /// How many bytes the sender of the segment can take, before any scaling: bytes 14 and 15.
    pub fn window_size(&self) -> u16 {
        u16_at(self.slice, 14)
    }

    /// The checksum as it was received: bytes 16 and 17.
    pub fn checksum(&self) -> u16 {
        u16_at(self.slice, 16)
    }

    /// Where urgent data ends, counted from the sequence number, if URG is set: bytes 18 and 19.
    pub fn urgent_pointer(&self) -> u16 {
        u16_at(self.slice, 18)
    }

    /// The options with their padding, 0 to 40 bytes: from byte 20 on.
    pub fn options(&self) -> &'a [u8] {
        &self.slice[20..]
    }
}
