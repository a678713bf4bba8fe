use crate::u16_at;

macro_rules! message {
    ($name:ident, $doc:literal) => {
        #[doc = $doc]
        #[derive(Clone, Copy, Debug, PartialEq, Eq)]
        pub struct $name<'a> {
            // At least 4 bytes.
            pub(super) slice: &'a [u8],
        }

        impl<'a> $name<'a> {
            /// The whole message.
            pub fn slice(&self) -> &'a [u8] {
                self.slice
            }

            /// The type: byte 0.
            pub fn type_u8(&self) -> u8 {
                self.slice[0]
            }

            /// The code: byte 1.
            pub fn code_u8(&self) -> u8 {
                self.slice[1]
            }

            /// The checksum as it was received: bytes 2 and 3.
            pub fn checksum(&self) -> u16 {
                u16_at(self.slice, 2)
            }

            /// All bytes after the checksum. What the crate `etherparse` calls the payload begins
            /// four bytes further on, or more, by the type.
            pub fn body(&self) -> &'a [u8] {
                &self.slice[4..]
            }
        }
    };
}

message!(Icmpv4Slice, "A message of ICMP (RFC 792), over IPv4.");
message!(Icmpv6Slice, "A message of ICMPv6 (RFC 4443), over IPv6.");
