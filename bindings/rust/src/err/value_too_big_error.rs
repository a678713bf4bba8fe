use super::show;
use crate::ffi;
use core::error::Error;
use core::fmt::{self, Debug, Display};
use core::hash::Hash;

/// Which value an error is about.
#[derive(Clone, Copy, Debug, PartialEq, Eq, PartialOrd, Ord, Hash)]
pub enum ValueType {
    /// The 13 bit fragment offset of an IP header.
    IpFragmentOffset,
    /// The 6 bit differentiated services code point of an IP header.
    IpDscp,
    /// The 2 bit explicit congestion notification of an IP header.
    IpEcn,
    /// The 20 bit flow label of an IPv6 header.
    Ipv6FlowLabel,
    /// The length of an IPv4 payload, from which the total length is set.
    Ipv4PayloadLength,
    /// The payload length of an IPv6 header.
    Ipv6PayloadLength,
}

impl ValueType {
    fn number(self) -> u16 {
        match self {
            ValueType::IpFragmentOffset => ffi::IP_FRAGMENT_OFFSET,
            ValueType::IpDscp => ffi::IP_DSCP,
            ValueType::IpEcn => ffi::IP_ECN,
            ValueType::Ipv6FlowLabel => ffi::IPV6_FLOW_LABEL,
            ValueType::Ipv4PayloadLength => ffi::IPV4_PAYLOAD_LENGTH,
            ValueType::Ipv6PayloadLength => ffi::IPV6_PAYLOAD_LENGTH,
        }
    }
}

/// A value above the greatest that is allowed.
#[derive(Clone, Debug, PartialEq, Eq, Hash)]
pub struct ValueTooBigError<T: Sized + Clone + Display + Debug + Eq + PartialEq + Hash> {
    /// The value that was refused.
    pub actual: T,
    /// The greatest value that is allowed.
    pub max_allowed: T,
    /// What the value is.
    pub value_type: ValueType,
}

macro_rules! display {
    ($($type:ty),*) => { $(
        /// Says which value was refused, what it is and how great it may be.
        impl Display for ValueTooBigError<$type> {
            fn fmt(&self, f: &mut fmt::Formatter<'_>) -> fmt::Result {
                show(
                    &ffi::Error {
                        kind: ffi::VALUE_TOO_BIG,
                        number: self.value_type.number(),
                        len: self.actual as usize,
                        limit: self.max_allowed as usize,
                        ..ffi::Error::default()
                    },
                    f,
                )
            }
        }

        impl Error for ValueTooBigError<$type> {}
    )* };
}

display!(u8, u16, u32, usize);
