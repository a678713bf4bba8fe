use super::{Fragment, IpPayloadSlice};
use crate::{ffi, part, IpNumber, Ipv4HeaderSlice, Ipv6HeaderSlice};

macro_rules! ip_slice {
    ($name:ident, $doc:literal, $header:ident) => {
        #[doc = $doc]
        #[derive(Clone, Copy, Debug, PartialEq, Eq)]
        pub struct $name<'a> {
            header: &'a [u8],
            extensions: &'a [u8],
            payload: IpPayloadSlice<'a>,
            fragment: Option<Fragment>,
            packet_len: usize,
        }

        impl<'a> $name<'a> {
            /// A view of the header. Each call has the library read it.
            pub fn header(&self) -> $header<'a> {
                $header::from_slice(self.header).expect("the header of a packet")
            }

            /// The payload.
            pub fn payload(&self) -> &IpPayloadSlice<'a> {
                &self.payload
            }

            /// The protocol of the payload.
            pub fn payload_ip_number(&self) -> IpNumber {
                self.payload.ip_number
            }

            /// Whether the payload is a fragment.
            pub fn is_payload_fragmented(&self) -> bool {
                self.payload.fragmented
            }

            /// The place of the payload if it is a fragment.
            pub fn fragment(&self) -> Option<Fragment> {
                self.fragment
            }

            /// How long the packet says it is, in bytes and with its header; 0 if it does not say
            /// it: by a total length of 0, or a payload length of 0 before hop-by-hop options, as in
            /// a jumbogram (RFC 2675 section 3).
            pub fn packet_len(&self) -> usize {
                self.packet_len
            }

            pub(super) fn of(frame: &'a [u8], ip: &ffi::PacketIp) -> $name<'a> {
                $name {
                    header: part(frame, ip.header),
                    extensions: part(frame, ip.extensions),
                    payload: IpPayloadSlice {
                        ip_number: IpNumber(ip.upper),
                        fragmented: ip.is_fragment,
                        incomplete: ip.is_truncated,
                        payload: part(frame, ip.payload),
                    },
                    fragment: ip.is_fragment.then_some(Fragment {
                        identification: ip.identification,
                        offset: ip.fragment_offset,
                        more_fragments: ip.more_fragments,
                    }),
                    packet_len: ip.packet_len,
                }
            }
        }
    };
}

ip_slice!(Ipv4Slice, "An IPv4 packet (RFC 791).", Ipv4HeaderSlice);
ip_slice!(Ipv6Slice, "An IPv6 packet (RFC 8200).", Ipv6HeaderSlice);

impl<'a> Ipv6Slice<'a> {
    /// The bytes of the extension headers, with a fragment header; empty if there are none.
    pub fn extensions(&self) -> &'a [u8] {
        self.extensions
    }
}
