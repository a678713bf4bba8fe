use crate::err::ipv4::BadOptionsLen;
use core::borrow::{Borrow, BorrowMut};
use core::cmp::Ordering;
use core::fmt;
use core::hash::{Hash, Hasher};
use core::ops::{Deref, DerefMut};

/// The options of an IPv4 header: 0 to 40 bytes in words of 4 (RFC 791 section 3.1).
#[derive(Clone, Copy)]
pub struct Ipv4Options {
    // How many bytes there are: at most 40, and a multiple of 4.
    len: u8,
    // The options, and behind them what is no part of them.
    buffer: [u8; 40],
}

impl Ipv4Options {
    /// The greatest number of bytes.
    pub const MAX_LEN: u8 = 40;

    /// No options.
    pub const fn new() -> Ipv4Options {
        Ipv4Options {
            len: 0,
            buffer: [0; 40],
        }
    }

    /// The bytes.
    pub fn as_slice(&self) -> &[u8] {
        &self.buffer[..usize::from(self.len)]
    }

    /// The bytes, to be changed.
    pub fn as_mut_slice(&mut self) -> &mut [u8] {
        &mut self.buffer[..usize::from(self.len)]
    }

    /// How many bytes there are.
    pub const fn len(&self) -> usize {
        self.len as usize
    }

    /// How many bytes there are, as a byte.
    pub const fn len_u8(&self) -> u8 {
        self.len
    }

    /// Whether there is none.
    pub const fn is_empty(&self) -> bool {
        self.len == 0
    }

    // The options of fields that the library gave, which are within their bounds.
    pub(crate) fn of(len: u8, buffer: [u8; 40]) -> Ipv4Options {
        debug_assert!(len <= 40 && len % 4 == 0);
        Ipv4Options { len, buffer }
    }

    // The whole buffer.
    pub(crate) fn buffer(&self) -> [u8; 40] {
        self.buffer
    }
}

impl TryFrom<&[u8]> for Ipv4Options {
    type Error = BadOptionsLen;

    fn try_from(value: &[u8]) -> Result<Ipv4Options, BadOptionsLen> {
        if value.len() > 40 || value.len() % 4 != 0 {
            return Err(BadOptionsLen {
                bad_len: value.len(),
            });
        }
        let mut options = Ipv4Options::new();
        options.buffer[..value.len()].copy_from_slice(value);
        options.len = value.len() as u8;
        Ok(options)
    }
}

macro_rules! from_array {
    ($($len:literal)*) => { $(
        impl From<[u8; $len]> for Ipv4Options {
            fn from(values: [u8; $len]) -> Ipv4Options {
                let mut options = Ipv4Options::new();
                options.buffer[..$len].copy_from_slice(&values);
                options.len = $len;
                options
            }
        }
    )* };
}

from_array!(0 4 8 12 16 20 24 28 32 36 40);

impl Default for Ipv4Options {
    fn default() -> Ipv4Options {
        Ipv4Options::new()
    }
}

impl fmt::Debug for Ipv4Options {
    fn fmt(&self, f: &mut fmt::Formatter<'_>) -> fmt::Result {
        self.as_slice().fmt(f)
    }
}

impl PartialEq for Ipv4Options {
    fn eq(&self, other: &Ipv4Options) -> bool {
        self.as_slice() == other.as_slice()
    }
}

impl Eq for Ipv4Options {}

impl Hash for Ipv4Options {
    fn hash<H: Hasher>(&self, state: &mut H) {
        self.as_slice().hash(state);
    }
}

impl PartialOrd for Ipv4Options {
    fn partial_cmp(&self, other: &Ipv4Options) -> Option<Ordering> {
        Some(self.cmp(other))
    }
}

impl Ord for Ipv4Options {
    fn cmp(&self, other: &Ipv4Options) -> Ordering {
        self.as_slice().cmp(other.as_slice())
    }
}

impl AsRef<Ipv4Options> for Ipv4Options {
    fn as_ref(&self) -> &Ipv4Options {
        self
    }
}

impl AsMut<Ipv4Options> for Ipv4Options {
    fn as_mut(&mut self) -> &mut Ipv4Options {
        self
    }
}

impl Borrow<[u8]> for Ipv4Options {
    fn borrow(&self) -> &[u8] {
        self.as_slice()
    }
}

impl BorrowMut<[u8]> for Ipv4Options {
    fn borrow_mut(&mut self) -> &mut [u8] {
        self.as_mut_slice()
    }
}

impl AsRef<[u8]> for Ipv4Options {
    fn as_ref(&self) -> &[u8] {
        self.as_slice()
    }
}

impl AsMut<[u8]> for Ipv4Options {
    fn as_mut(&mut self) -> &mut [u8] {
        self.as_mut_slice()
    }
}

impl Deref for Ipv4Options {
    type Target = [u8];

    fn deref(&self) -> &[u8] {
        self.as_slice()
    }
}

impl DerefMut for Ipv4Options {
    fn deref_mut(&mut self) -> &mut [u8] {
        self.as_mut_slice()
    }
}
