// The bytes of a header that begins with two ports, and these.
macro_rules! ports {
    ($name:ident) => {
        impl<'a> $name<'a> {
            /// The bytes of the header.
            pub fn slice(&self) -> &'a [u8] {
                self.slice
            }

            /// The source port: bytes 0 and 1.
            pub fn source_port(&self) -> u16 {
                crate::u16_at(self.slice, 0)
            }

            /// The destination port: bytes 2 and 3.
            pub fn destination_port(&self) -> u16 {
                crate::u16_at(self.slice, 2)
            }
        }
    };
}

mod icmp;
mod tcp_header_slice;
mod transport_slice;
mod udp_header_slice;
mod udp_tcp_slices;

pub use icmp::{Icmpv4Slice, Icmpv6Slice};
pub use tcp_header_slice::TcpHeaderSlice;
pub use transport_slice::TransportSlice;
pub use udp_header_slice::UdpHeaderSlice;
pub use udp_tcp_slices::{TcpSlice, UdpSlice};
