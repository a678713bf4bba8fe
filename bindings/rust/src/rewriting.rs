//! Checksums of UDP, TCP, ICMP and ICMPv6, and packets that are changed in place. The crate
//! `etherparse` changes no packet in place.
//!
//! A packet is a whole one of IP, and may have other bytes after it, which stay. The checksums that
//! cover a field are updated with it (RFC 1624): a right one stays right, and a wrong one is not
//! repaired. A UDP checksum of 0, which says that there is none, stays 0. A call that fails changes
//! nothing.
//!
//! A new destination updates a checksum for the final one (RFC 791 section 3.1, RFC 8200 section
//! 8.1), unless a source route or a routing header keeps that, or it is unknown. A new IPv6 source
//! updates it for the original one, unless a Home Address option keeps that (RFC 6275 section
//! 11.3.1) or Shim6 hides it. Checksums other than those of UDP, TCP and ICMPv6, also of mobility
//! headers (135) and the Host Identity Protocol (139), stay as they are, and can become wrong.
//!
//! A checksum and a port are numbers whose high byte comes first in the packet.

use crate::err::show_text;
use crate::{ffi, parts, IpDscp, IpEcn, IpNumber};
use core::error::Error;
use core::fmt;

// An error of the library, whose numbers are those of some of its kinds.
macro_rules! errors {
    ($($(#[$doc:meta])* $name:ident { $($(#[$about:meta])* $kind:ident = $number:ident,)* })*) => { $(
        $(#[$doc])*
        #[derive(Clone, Copy, Debug, PartialEq, Eq, Hash)]
        #[repr(u32)]
        pub enum $name {
            $($(#[$about])* $kind = ffi::rewriting::$number,)*
        }

        impl $name {
            // `Ok` if the number that the library gave is that of no error.
            fn check(number: u32) -> Result<(), $name> {
                match number {
                    ffi::rewriting::OK => Ok(()),
                    $(ffi::rewriting::$number => Err($name::$kind),)*
                    _ => unreachable!("no call gives another error"),
                }
            }
        }

        /// Says what is wrong.
        impl fmt::Display for $name {
            fn fmt(&self, f: &mut fmt::Formatter<'_>) -> fmt::Result {
                show_text::<{ ffi::rewriting::ERROR_TEXT_SIZE }>(f, |text| {
                    let (at, len) = (text.as_mut_ptr(), text.len());
                    // SAFETY: the pointer and the length are those of one slice.
                    unsafe { ffi::rewriting::etherparse_rewriting_error_text(*self as u32, at, len) }
                })
            }
        }

        impl Error for $name {}
    )* };
}

errors! {
    /// Why a segment gets no checksum.
    ChecksumError {
        /// The protocol is none of UDP, TCP, ICMP (over IPv4) and ICMPv6 (over IPv6).
        OtherProtocol = OTHER_PROTOCOL,
        /// Not all the bytes that the checksum covers are there: fewer than 8 of UDP, 20 of TCP or
        /// 4 of ICMP and ICMPv6, or than the length field of UDP says; or that field is below 8.
        Incomplete = INCOMPLETE,
        /// There are more bytes than the pseudo-header can tell: more than 65535 over IPv4, or
        /// 2^32 - 1 over IPv6. ICMP over IPv4 has no pseudo-header.
        TooLong = TOO_LONG,
    }

    /// Why a packet is not changed.
    RewriteError {
        /// It has no bytes.
        Empty = EMPTY,
        /// Its IP version is neither 4 nor 6.
        UnexpectedVersion = UNEXPECTED_VERSION,
        /// It has no whole IPv4 header, or one whose IHL is below 5.
        Ipv4Header = IPV4_HEADER,
        /// It has no whole IPv6 header.
        Ipv6Header = IPV6_HEADER,
        /// It has fewer bytes than its length field says, or that says less than the header has.
        Packet = PACKET,
        /// It ends within an IPv6 extension header.
        Extensions = EXTENSIONS,
        /// The address is one of the other IP version.
        OtherVersion = OTHER_VERSION,
        /// The payload has fewer than 8 bytes of UDP, 20 of TCP or 4 of ICMPv6, as that of a first
        /// fragment can.
        Incomplete = INCOMPLETE,
        /// The payload is a later fragment, which has no ports.
        LaterFragment = LATER_FRAGMENT,
        /// The payload is neither UDP nor TCP.
        OtherProtocol = OTHER_PROTOCOL,
    }
}

/// How far the change of an address reaches in a packet.
#[derive(Clone, Copy, Debug, PartialEq, Eq, Hash)]
pub enum Reach {
    /// Into the header of UDP, TCP or, over IPv6, ICMPv6, whose checksum is updated too, unless the
    /// address that it covers stays the same or is unknown.
    Upper,
    /// It ends with the IP header: the payload is a later fragment. No checksum in it is updated,
    /// though that of TCP can be there if the first fragment is short.
    LaterFragment,
    /// It ends with the IP header: the checksum of the protocol does not cover the addresses, or the
    /// protocol is not known here.
    OtherProtocol,
}

impl Reach {
    fn of(answer: ffi::rewriting::ReachAnswer) -> Result<Reach, RewriteError> {
        RewriteError::check(answer.error)?;
        Ok(match answer.reach {
            ffi::rewriting::REACH_UPPER => Reach::Upper,
            ffi::rewriting::REACH_LATER_FRAGMENT => Reach::LaterFragment,
            _ => Reach::OtherProtocol,
        })
    }
}

// A packet as the library takes one that it changes.
fn parts_mut(packet: &mut [u8]) -> (*mut u8, usize) {
    (packet.as_mut_ptr(), packet.len())
}

macro_rules! checksums {
    ($($(#[$doc:meta])* $name:ident, $call:ident; $(#[$set_doc:meta])* $set_name:ident, $set_call:ident;
       $address:ty;)*) => { $(
        $(#[$doc])*
        pub fn $name(
            source: $address,
            destination: $address,
            protocol: IpNumber,
            segment: &[u8],
        ) -> Result<u16, ChecksumError> {
            let (at, len) = parts(segment);
            // SAFETY: the references are to addresses, the pointer and the length are those of one
            // slice.
            let answer =
                unsafe { ffi::rewriting::$call(&source, &destination, protocol.0, at, len) };
            ChecksumError::check(answer.error)?;
            Ok(answer.checksum)
        }

        $(#[$set_doc])*
        pub fn $set_name(
            source: $address,
            destination: $address,
            protocol: IpNumber,
            segment: &mut [u8],
        ) -> Result<(), ChecksumError> {
            let (at, len) = parts_mut(segment);
            // SAFETY: as above, and the segment is borrowed mutably.
            ChecksumError::check(unsafe {
                ffi::rewriting::$set_call(&source, &destination, protocol.0, at, len)
            })
        }
    )* };
}

checksums! {
    /// The checksum that a segment should have over IPv4, whatever it has: that of UDP or TCP with
    /// the pseudo-header (RFC 768, RFC 9293 section 3.1), that of ICMP without one (RFC 792). For
    /// UDP it is never 0, which says that there is none: 0xffff stands for 0.
    ///
    /// The segment has to end where the packet's length field says, since each of its bytes counts;
    /// but a UDP datagram ends where its own length field says: set that first. The destination is
    /// the final one.
    ///
    /// ```
    /// use etherparse_proved::{rewriting::calc_checksum_ipv4, IpNumber};
    ///
    /// let (source, destination) = ([192, 168, 0, 1], [192, 168, 0, 199]);
    /// let datagram = [4, 0, 0, 53, 0, 12, 0, 0, b't', b'e', b's', b't'];
    /// let checksum = calc_checksum_ipv4(source, destination, IpNumber::UDP, &datagram)?;
    /// assert_eq!(checksum, 0x91ae);
    /// # Ok::<(), etherparse_proved::rewriting::ChecksumError>(())
    /// ```
    ///
    /// # Errors
    ///
    /// `OtherProtocol` if the protocol is none of UDP, TCP and ICMP; otherwise `Incomplete`, and
    /// otherwise `TooLong`.
    calc_checksum_ipv4, etherparse_checksum_ipv4;
    /// Writes the checksum of [`calc_checksum_ipv4`] into the segment.
    ///
    /// # Errors
    ///
    /// Those of [`calc_checksum_ipv4`].
    set_checksum_ipv4, etherparse_set_checksum_ipv4;
    [u8; 4];

    /// The checksum that a segment should have over IPv6 (RFC 8200 section 8.1), as
    /// [`calc_checksum_ipv4`] has it over IPv4: that of UDP, TCP or ICMPv6 (RFC 4443 section 2.3).
    /// The source is the original one, the destination the final one.
    ///
    /// # Errors
    ///
    /// `OtherProtocol` if the protocol is none of UDP, TCP and ICMPv6; otherwise `Incomplete`, and
    /// otherwise `TooLong`.
    calc_checksum_ipv6, etherparse_checksum_ipv6;
    /// Writes the checksum of [`calc_checksum_ipv6`] into the segment.
    ///
    /// # Errors
    ///
    /// Those of [`calc_checksum_ipv6`].
    set_checksum_ipv6, etherparse_set_checksum_ipv6;
    [u8; 16];
}

macro_rules! addresses {
    ($($(#[$doc:meta])* $name:ident, $call:ident, $address:ty;)*) => { $(
        $(#[$doc])*
        ///
        /// # Errors
        ///
        /// The first that applies of `Empty` to `Extensions`, `OtherVersion` and `Incomplete`.
        pub fn $name(packet: &mut [u8], address: $address) -> Result<Reach, RewriteError> {
            let (at, len) = parts_mut(packet);
            // SAFETY: the pointer and the length are those of one slice, which is borrowed mutably,
            // the reference is to an address.
            Reach::of(unsafe { ffi::rewriting::$call(at, len, &address) })
        }
    )* };
}

addresses! {
    /// Gives an IPv4 packet another source address, with the header checksum and, if [`Reach`] says
    /// so, that of UDP or TCP.
    set_source_ipv4, etherparse_set_source_ipv4, [u8; 4];
    /// Gives an IPv4 packet another destination address, as [`set_source_ipv4`] another source.
    set_destination_ipv4, etherparse_set_destination_ipv4, [u8; 4];
    /// Gives an IPv6 packet another source address, with the checksum of UDP, TCP or ICMPv6 if
    /// [`Reach`] says so.
    set_source_ipv6, etherparse_set_source_ipv6, [u8; 16];
    /// Gives an IPv6 packet another destination address, as [`set_source_ipv6`] another source.
    set_destination_ipv6, etherparse_set_destination_ipv6, [u8; 16];
}

macro_rules! fields {
    ($($(#[$doc:meta])* $name:ident, $call:ident, $field:ident: $type:ty, $value:expr;)*) => { $(
        $(#[$doc])*
        pub fn $name(packet: &mut [u8], $field: $type) -> Result<(), RewriteError> {
            let (at, len) = parts_mut(packet);
            // SAFETY: the pointer and the length are those of one slice, which is borrowed mutably.
            RewriteError::check(unsafe { ffi::rewriting::$call(at, len, $value) })
        }
    )* };
}

fields! {
    /// Gives a packet of either version with UDP or TCP another source port, with the checksum.
    ///
    /// # Errors
    ///
    /// The first that applies of `Empty` to `Extensions`, `LaterFragment`, `OtherProtocol` and
    /// `Incomplete`.
    set_source_port, etherparse_set_source_port, port: u16, port;
    /// Gives a packet another destination port, as [`set_source_port`] another source port.
    ///
    /// # Errors
    ///
    /// Those of [`set_source_port`].
    set_destination_port, etherparse_set_destination_port, port: u16, port;
    /// Gives a packet of either version another differentiated services code point (RFC 2474 section
    /// 3), with the header checksum of IPv4. Only the header is read: what follows it may be cut.
    ///
    /// # Errors
    ///
    /// The first that applies of `Empty`, `UnexpectedVersion`, `Ipv4Header` and `Ipv6Header`.
    set_dscp, etherparse_set_dscp, dscp: IpDscp, dscp.value();
    /// Gives a packet of either version another explicit congestion notification (RFC 3168 section
    /// 5), as [`set_dscp`] another code point.
    ///
    /// # Errors
    ///
    /// Those of [`set_dscp`].
    set_ecn, etherparse_set_ecn, ecn: IpEcn, ecn.value();
}
