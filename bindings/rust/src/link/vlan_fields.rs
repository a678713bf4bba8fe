use core::fmt;

macro_rules! number {
    ($name:ident, $number:ty, $doc:literal) => {
        #[doc = $doc]
        #[derive(Clone, Copy, Debug, Default, PartialEq, Eq, PartialOrd, Ord, Hash)]
        pub struct $name(pub(super) $number);

        impl $name {
            /// The number.
            pub const fn value(self) -> $number {
                self.0
            }
        }

        impl From<$name> for $number {
            fn from(field: $name) -> $number {
                field.0
            }
        }

        impl fmt::Display for $name {
            fn fmt(&self, f: &mut fmt::Formatter<'_>) -> fmt::Result {
                self.0.fmt(f)
            }
        }
    };
}

number!(
    VlanId,
    u16,
    "The identifier of a VLAN, 0 to 4095 (IEEE 802.1Q section 9.6)."
);
number!(
    VlanPcp,
    u8,
    "The priority of a frame, 0 to 7 (IEEE 802.1Q section 9.6)."
);
