use crate::err::{ValueTooBigError, ValueType};
use core::fmt;

macro_rules! bounded {
    ($name:ident, $doc:literal, $number:ty, $max_name:ident, $max:literal, $value_type:ident) => {
        #[doc = $doc]
        #[derive(Clone, Copy, Debug, Default, PartialEq, Eq, PartialOrd, Ord, Hash)]
        pub struct $name($number);

        impl $name {
            /// The number 0.
            pub const ZERO: $name = $name(0);

            /// The greatest number.
            pub const $max_name: $number = $max;

            /// The field of this number.
            ///
            /// # Errors
            ///
            /// A `ValueTooBigError` where the number is above the greatest.
            pub const fn try_new(value: $number) -> Result<$name, ValueTooBigError<$number>> {
                if value <= $max {
                    Ok($name(value))
                } else {
                    Err(ValueTooBigError {
                        actual: value,
                        max_allowed: $max,
                        value_type: ValueType::$value_type,
                    })
                }
            }

            /// The number.
            pub const fn value(self) -> $number {
                self.0
            }
        }

        impl fmt::Display for $name {
            fn fmt(&self, f: &mut fmt::Formatter<'_>) -> fmt::Result {
                self.0.fmt(f)
            }
        }

        impl From<$name> for $number {
            fn from(value: $name) -> $number {
                value.0
            }
        }

        impl TryFrom<$number> for $name {
            type Error = ValueTooBigError<$number>;

            fn try_from(value: $number) -> Result<$name, ValueTooBigError<$number>> {
                $name::try_new(value)
            }
        }
    };
}

bounded!(
    IpDscp,
    "The differentiated services code point, at most 63 (RFC 2474).",
    u8,
    MAX_U8,
    63,
    IpDscp
);
bounded!(
    IpFragOffset,
    "Where a fragment stands in its packet, in units of 8 bytes, at most 8191 (RFC 791).",
    u16,
    MAX_U16,
    8191,
    IpFragmentOffset
);
bounded!(
    Ipv6FlowLabel,
    "The flow label of an IPv6 header, at most 1048575 (RFC 8200).",
    u32,
    MAX_U32,
    1_048_575,
    Ipv6FlowLabel
);

impl IpFragOffset {
    /// The same in bytes.
    pub const fn byte_offset(self) -> u16 {
        self.0 * 8
    }
}

/// The explicit congestion notification (RFC 3168).
#[derive(Clone, Copy, Debug, Default, PartialEq, Eq, PartialOrd, Ord, Hash)]
pub enum IpEcn {
    /// 0: the sender takes no part.
    #[default]
    NotEct = 0,
    /// 1: the sender takes part.
    Ect1 = 1,
    /// 2: the sender takes part.
    Ect0 = 2,
    /// 3: a router has met congestion.
    CongestionExperienced = 3,
}

impl IpEcn {
    /// The number 0.
    pub const ZERO: IpEcn = IpEcn::NotEct;

    /// The number 1.
    pub const ONE: IpEcn = IpEcn::Ect1;

    /// The number 2.
    pub const TWO: IpEcn = IpEcn::Ect0;

    /// The number 3.
    pub const THREE: IpEcn = IpEcn::CongestionExperienced;

    /// The greatest number.
    pub const MAX_U8: u8 = 3;

    /// The field of this number.
    ///
    /// # Errors
    ///
    /// A `ValueTooBigError` where the number is above 3.
    pub const fn try_new(value: u8) -> Result<IpEcn, ValueTooBigError<u8>> {
        match value {
            0 => Ok(IpEcn::NotEct),
            1 => Ok(IpEcn::Ect1),
            2 => Ok(IpEcn::Ect0),
            3 => Ok(IpEcn::CongestionExperienced),
            _ => Err(ValueTooBigError {
                actual: value,
                max_allowed: IpEcn::MAX_U8,
                value_type: ValueType::IpEcn,
            }),
        }
    }

    /// The number.
    pub const fn value(self) -> u8 {
        self as u8
    }
}

impl fmt::Display for IpEcn {
    fn fmt(&self, f: &mut fmt::Formatter<'_>) -> fmt::Result {
        self.value().fmt(f)
    }
}

impl From<IpEcn> for u8 {
    fn from(value: IpEcn) -> u8 {
        value.value()
    }
}

impl TryFrom<u8> for IpEcn {
    type Error = ValueTooBigError<u8>;

    fn try_from(value: u8) -> Result<IpEcn, ValueTooBigError<u8>> {
        IpEcn::try_new(value)
    }
}
