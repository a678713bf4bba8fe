#![doc = include_str!("../README.md")]
#![no_std]

mod batch;
pub mod checksum;
pub mod err;
mod ether_type;
mod ffi;
pub mod filter;
mod lax_sliced_packet;
mod len_source;
mod link;
mod link_type;
mod net;
pub mod reassembly;
pub mod rewriting;
mod sliced_packet;
mod transport;
mod verdict;

pub use batch::{LaxBatch, PacketBuffer};
pub use ether_type::EtherType;
pub use lax_sliced_packet::LaxSlicedPacket;
pub use len_source::LenSource;
pub use link::{
    DoubleVlanSlice, EtherPayloadSlice, Ethernet2Slice, LinkSlice, LinuxSll2Slice, LinuxSllSlice,
    SingleVlanSlice, VlanId, VlanPcp, VlanSlice,
};
pub use link_type::LinkType;
pub use net::{
    Fragment, IpDscp, IpEcn, IpFragOffset, IpNumber, IpPayloadSlice, Ipv4Header, Ipv4HeaderBytes,
    Ipv4HeaderSlice, Ipv4Options, Ipv4Slice, Ipv6FlowLabel, Ipv6Header, Ipv6HeaderSlice, Ipv6Slice,
    NetSlice,
};
pub use sliced_packet::SlicedPacket;
pub use transport::{
    Icmpv4Slice, Icmpv6Slice, TcpHeaderSlice, TcpSlice, TransportSlice, UdpHeaderSlice, UdpSlice,
};
pub use verdict::{Absence, Verdict};

// A slice as the library takes it: a pointer, which is never null here, and a length. A slice of
// Rust has at most half of the address space, as the library asks.
fn parts(slice: &[u8]) -> (*const u8, usize) {
    (slice.as_ptr(), slice.len())
}

// A part of a frame, whose place the library gave.
fn part(frame: &[u8], part: ffi::Part) -> &[u8] {
    &frame[part.offset..part.offset + part.len]
}

// Two bytes at a place in a header as a number, the high byte first.
fn u16_at(header: &[u8], place: usize) -> u16 {
    u16::from_be_bytes([header[place], header[place + 1]])
}

// Four bytes, likewise.
fn u32_at(header: &[u8], place: usize) -> u32 {
    u32::from_be_bytes(core::array::from_fn(|byte| header[place + byte]))
}
