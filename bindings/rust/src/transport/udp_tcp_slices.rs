use super::{TcpHeaderSlice, UdpHeaderSlice};
use core::ops::Deref;

macro_rules! slice {
    ($name:ident, $header:ident, $doc:literal) => {
        #[doc = $doc]
        #[derive(Clone, Copy, Debug, PartialEq, Eq)]
        pub struct $name<'a> {
            pub(super) header: $header<'a>,
            // The header and the payload.
            pub(super) slice: &'a [u8],
        }

        impl<'a> $name<'a> {
            /// The header.
            pub fn header(&self) -> $header<'a> {
                self.header
            }

            /// The header and the payload.
            pub fn slice(&self) -> &'a [u8] {
                self.slice
            }

            /// The bytes of the header.
            pub fn header_slice(&self) -> &'a [u8] {
                self.header.slice
            }

            /// All bytes of the IP packet after the header, whatever a length in it says.
            pub fn payload(&self) -> &'a [u8] {
                &self.slice[self.header.slice.len()..]
            }
        }

        impl<'a> Deref for $name<'a> {
            type Target = $header<'a>;

            fn deref(&self) -> &$header<'a> {
                &self.header
            }
        }
    };
}

slice!(
    UdpSlice,
    UdpHeaderSlice,
    "A UDP datagram (RFC 768). It has the getters of its header."
);
slice!(
    TcpSlice,
    TcpHeaderSlice,
    "A TCP segment (RFC 9293). It has the getters of its header."
);
