use crate::ffi;
use core::fmt;

/// What a receiver finds of the checksum of a payload. It is displayed as `right`, `wrong` or
/// `none`. The crate `etherparse` has no such type.
///
/// The packets that a host sends look wrong in a capture on that host if its network card computes
/// their checksums. The destination is the final one (RFC 791 section 3.1, RFC 8200 section 8.1).
/// The source is the original one: over IPv6 the home address, if destination options have a Home
/// Address option (RFC 6275 section 11.3.1).
#[derive(Clone, Copy, Debug, PartialEq, Eq, Hash)]
pub enum Verdict {
    /// It is right.
    Right,
    /// It is wrong.
    Wrong,
    /// There is none to judge.
    Absent(Absence),
}

/// Why there is no checksum to judge.
#[derive(Clone, Copy, Debug, PartialEq, Eq, Hash)]
pub enum Absence {
    /// The payload is a fragment: its checksum covers other fragments too.
    Fragment,
    /// The protocol is none of UDP, TCP, ICMP (over IPv4) and ICMPv6 (over IPv6).
    OtherProtocol,
    /// Not all bytes that it covers are there, UDP's length is below 8, or the packet is not whole.
    Incomplete,
    /// The sender has computed none: the field of UDP over IPv4 is 0 (RFC 768).
    NotComputed,
    /// It covers the final destination of an IPv6 packet, which is unknown: a routing header with
    /// segments left has a type other than 0, 2, 3 and 4, or its numbers do not fit its length; or a
    /// payload header of Shim6 hides it.
    UnknownDestination,
}

impl Verdict {
    // The verdict of a number that the library gave; `None` where it did not judge.
    pub(crate) fn of(number: u8) -> Option<Verdict> {
        Some(match number {
            ffi::RIGHT => Verdict::Right,
            ffi::WRONG => Verdict::Wrong,
            ffi::FRAGMENT => Verdict::Absent(Absence::Fragment),
            ffi::OTHER_PROTOCOL => Verdict::Absent(Absence::OtherProtocol),
            ffi::INCOMPLETE => Verdict::Absent(Absence::Incomplete),
            ffi::NOT_COMPUTED => Verdict::Absent(Absence::NotComputed),
            ffi::UNKNOWN_DESTINATION => Verdict::Absent(Absence::UnknownDestination),
            _ => return None,
        })
    }
}

impl fmt::Display for Verdict {
    fn fmt(&self, f: &mut fmt::Formatter<'_>) -> fmt::Result {
        f.pad(match self {
            Verdict::Right => "right",
            Verdict::Wrong => "wrong",
            Verdict::Absent(_) => "none",
        })
    }
}
