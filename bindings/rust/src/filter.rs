//! Filters of packets: an expression in the words of pcap-filter(7), such as
//! `tcp port 80 or udp port 53`, compiled once and then asked for frames. The crate `etherparse` has
//! none.

use crate::err::show_text;
use crate::{ffi, parts, LinkType};
use core::error::Error;
use core::fmt;
use core::marker::PhantomData;

/// An expression that frames are chosen by. It has 6176 bytes, and a clone copies them.
///
/// To ask a filter borrows it for the caller alone, since the library takes it from one call at a
/// time. Threads that filter at once have a clone each.
///
/// ```
/// use etherparse_proved::filter::Filter;
/// use etherparse_proved::LinkType;
///
/// let mut filter = Filter::from_text("udp dst port 53")?;
/// // A UDP datagram over IPv4, from port 1024 to port 53.
/// let packet = [
///     0x45, 0, 0, 32, 0, 0, 0, 0, 64, 17, 0, 0, 192, 168, 0, 1, 192, 168, 0, 199, 4, 0, 0, 53, 0,
///     12, 0x91, 0xae, b't', b'e', b's', b't',
/// ];
/// assert!(filter.matches_frame(LinkType::RAW, &packet, packet.len()));
/// # Ok::<(), etherparse_proved::filter::FilterError>(())
/// ```
///
/// ```compile_fail,E0596
/// fn is_chosen(filter: &etherparse_proved::filter::Filter, frame: &[u8]) -> bool {
///     filter.matches_frame(etherparse_proved::LinkType::ETHERNET, frame, frame.len())
/// }
/// ```
#[derive(Clone)]
pub struct Filter {
    // Memory into which the library has put a filter. It has no pointer into itself, so it may be
    // moved and copied.
    memory: ffi::filter::Filter,
}

impl Filter {
    /// The most words that an expression can have. A bracket and an operator are words too.
    pub const MAX_WORDS: usize = ffi::filter::MAX_WORDS;

    /// The filter of an expression. The text may be any bytes.
    ///
    /// # Errors
    ///
    /// Why the text is no expression.
    pub fn from_text(text: impl AsRef<[u8]>) -> Result<Filter, FilterError> {
        let mut memory = ffi::filter::Filter::uninit();
        let mut refusal = ffi::filter::FilterRefusal::default();
        let (at, len) = parts(text.as_ref());
        // SAFETY: the pointer and the length are those of one slice; the filter and the refusal are
        // elsewhere, and the filter need not be initialised.
        let is_read =
            unsafe { ffi::filter::etherparse_filter_from_text(at, len, &mut memory, &mut refusal) };
        if is_read {
            Ok(Filter { memory })
        } else {
            Err(FilterError::of(&refusal))
        }
    }

    /// Whether the filter chooses a frame of a link type. `original_len` is the length of the frame
    /// on the wire, in bytes: `less` and `greater` go by it. A capture can have fewer.
    ///
    /// A frame of a link type that is not read is not chosen, whatever the expression says. Of a
    /// frame that ends within its link header no primitive about a header, an address or a port is
    /// true.
    pub fn matches_frame(
        &mut self,
        link_type: LinkType,
        frame: &[u8],
        original_len: usize,
    ) -> bool {
        let (at, len) = parts(frame);
        // SAFETY: the memory has a filter that the library compiled, or a copy of one, and `self` is
        // borrowed for this call alone. The pointer and the length are those of one slice.
        unsafe {
            ffi::filter::etherparse_filter_matches(
                &mut self.memory,
                link_type.0,
                at,
                len,
                original_len,
            )
        }
    }

    /// [`Filter::matches_frame`] of each frame of a list, in one call of the library: `answers[i]`
    /// is that for `frames[i]`. It returns how many there are, which is the smaller length of both.
    /// The answers after them stay as they are.
    ///
    /// ```
    /// use etherparse_proved::filter::{Filter, Frame};
    /// use etherparse_proved::LinkType;
    ///
    /// let mut filter = Filter::from_text("ip and less 40")?;
    /// let packet = [0x45; 20];
    /// let frames = [Frame::new(&packet), Frame::truncated(&packet, 1500)];
    /// let mut answers = [false; 2];
    /// assert_eq!(filter.matches_frames(LinkType::RAW, &frames, &mut answers), 2);
    /// assert_eq!(answers, [true, false]);
    /// # Ok::<(), etherparse_proved::filter::FilterError>(())
    /// ```
    pub fn matches_frames(
        &mut self,
        link_type: LinkType,
        frames: &[Frame<'_>],
        answers: &mut [bool],
    ) -> usize {
        // SAFETY: as above; a `Frame` has the layout of the library's, and its bytes live for the
        // call. The answers are borrowed mutably, so they are elsewhere.
        unsafe {
            ffi::filter::etherparse_filter_matches_batch(
                &mut self.memory,
                link_type.0,
                frames.as_ptr().cast(),
                frames.len(),
                answers.as_mut_ptr(),
                answers.len(),
            )
        }
    }
}

impl fmt::Debug for Filter {
    fn fmt(&self, f: &mut fmt::Formatter<'_>) -> fmt::Result {
        f.debug_struct("Filter").finish_non_exhaustive()
    }
}

/// A frame of a list for [`Filter::matches_frames`]. It lives as long as its bytes, and no longer:
///
/// ```compile_fail,E0597
/// let frame = {
///     let bytes = [0x45, 0];
///     etherparse_proved::filter::Frame::truncated(&bytes, 20)
/// };
/// assert_eq!(frame.original_len(), 20);
/// ```
#[derive(Clone, Copy)]
#[repr(transparent)]
pub struct Frame<'a> {
    // The pointer and the length are those of a slice that lives for 'a.
    frame: ffi::Frame,
    bytes: PhantomData<&'a [u8]>,
}

// SAFETY: it is a slice that is read alone, and a number.
unsafe impl Send for Frame<'_> {}
// SAFETY: likewise.
unsafe impl Sync for Frame<'_> {}

impl<'a> Frame<'a> {
    /// A frame that is there whole.
    pub fn new(bytes: &'a [u8]) -> Frame<'a> {
        Frame::truncated(bytes, bytes.len())
    }

    /// A frame that had so many bytes on the wire, of which a capture can have fewer.
    pub fn truncated(bytes: &'a [u8], original_len: usize) -> Frame<'a> {
        let (at, len) = parts(bytes);
        Frame {
            frame: ffi::Frame {
                at,
                len,
                original_len,
            },
            bytes: PhantomData,
        }
    }

    /// What there is of it.
    pub fn bytes(&self) -> &'a [u8] {
        // SAFETY: the pointer and the length are those of a slice that lives for 'a.
        unsafe { core::slice::from_raw_parts(self.frame.at, self.frame.len) }
    }

    /// How many bytes it had on the wire.
    pub fn original_len(&self) -> usize {
        self.frame.original_len
    }
}

impl fmt::Debug for Frame<'_> {
    fn fmt(&self, f: &mut fmt::Formatter<'_>) -> fmt::Result {
        f.debug_struct("Frame")
            .field("bytes", &self.bytes())
            .field("original_len", &self.original_len())
            .finish()
    }
}

/// Why a text is no filter. Places are in bytes from the start of the text.
#[derive(Clone, Copy, Debug, PartialEq, Eq, Hash)]
pub enum FilterError {
    /// A word that cannot stand at its place.
    Unexpected {
        /// Where the word begins.
        place: usize,
        /// What could stand there.
        expected: Expected,
    },
    /// An operator where the other could stand: parentheses have to say which comes first.
    Mixed {
        /// Where the operator begins.
        place: usize,
        /// The operator at that place.
        operator: Operator,
    },
    /// A word of pcap-filter(7) that the language lacks.
    Unsupported {
        /// Where the word begins.
        place: usize,
    },
    /// The text ends where more words have to follow.
    Incomplete {
        /// The length of the text, in bytes.
        place: usize,
        /// What could be the next.
        expected: Expected,
    },
    /// The text has more than [`Filter::MAX_WORDS`] words.
    TooLong {
        /// Where the first word beyond them begins.
        place: usize,
    },
}

/// What joins two expressions.
#[derive(Clone, Copy, Debug, PartialEq, Eq, Hash)]
#[repr(u16)]
pub enum Operator {
    /// `and`.
    And = ffi::filter::FOUND_AND,
    /// `or`.
    Or = ffi::filter::FOUND_OR,
}

macro_rules! expected {
    ($($(#[$doc:meta])* $name:ident = $number:ident,)*) => {
        /// What could stand at a place of an expression.
        #[derive(Clone, Copy, Debug, PartialEq, Eq, Hash)]
        #[repr(u16)]
        pub enum Expected {
            $($(#[$doc])* $name = ffi::filter::$number,)*
        }

        // Each of them.
        const EXPECTED: &[Expected] = &[$(Expected::$name,)*];
    };
}

expected! {
    /// `not`, `(` or a primitive.
    Operand = OPERAND,
    /// `and` or `or`.
    AndOr = AND_OR,
    /// `and`, `or` or `)`.
    AndOrClose = AND_OR_CLOSE,
    /// `and`.
    And = AND,
    /// `and` or `)`.
    AndClose = AND_CLOSE,
    /// `or`.
    Or = OR,
    /// `or` or `)`.
    OrClose = OR_CLOSE,
    /// After `ip` or `ip6`: a word such as `host`, or an operator.
    AfterIp = AFTER_IP,
    /// After `arp` or `rarp`: a word such as `host`, or an operator.
    AfterArp = AFTER_ARP,
    /// After `tcp`, `udp` or `sctp`: a word such as `port`, or an operator.
    AfterTransport = AFTER_TRANSPORT,
    /// After `vlan`: an identifier, up to 4095, or an operator.
    AfterVlan = AFTER_VLAN,
    /// After `src` or `dst`: what it is of, or an address.
    AfterDirection = AFTER_DIRECTION,
    /// After a transport protocol and a direction, such as `tcp src`: `port` or `portrange`.
    AfterTransportDirection = AFTER_TRANSPORT_DIRECTION,
    /// After `ether`: a word such as `host`.
    AfterEther = AFTER_ETHER,
    /// After `src or` and `src and`: `dst`.
    Destination = DESTINATION,
    /// An address.
    Address = ADDRESS,
    /// An IPv4 address.
    Ipv4Address = IPV4_ADDRESS,
    /// An IPv6 address.
    Ipv6Address = IPV6_ADDRESS,
    /// An address and how many of its bits count.
    Network = NETWORK,
    /// The same of IPv4.
    Ipv4Network = IPV4_NETWORK,
    /// The same of IPv6.
    Ipv6Network = IPV6_NETWORK,
    /// After an IPv4 network: `mask`, or an operator.
    AfterAddress = AFTER_ADDRESS,
    /// After `mask`: octets with all bits that the address has.
    Mask = MASK,
    /// A port, by number or name.
    Port = PORT,
    /// Two ports with a hyphen between them.
    PortRange = PORT_RANGE,
    /// A protocol that IP carries, by number or name.
    Protocol = PROTOCOL,
    /// Six octets in hexadecimal, with colons between them.
    EthernetAddress = ETHERNET_ADDRESS,
    /// An EtherType, by number or name.
    EtherType = ETHER_TYPE,
    /// After `first`: `fragment`.
    Fragment = FRAGMENT,
    /// After `checksum`: `wrong`.
    Wrong = WRONG,
    /// After `[`: which bytes are loaded.
    Place = PLACE,
    /// `]`.
    CloseBracket = CLOSE_BRACKET,
    /// `=`, `!=`, `<`, `<=`, `>` or `>=`.
    Relation = RELATION,
    /// A number.
    Number = NUMBER,
    /// After a number of several in parentheses: `|` or `)`.
    Bits = BITS,
}

impl Expected {
    // What the library has this number for.
    fn of(number: u16) -> Expected {
        let found = EXPECTED.iter().find(|known| **known as u16 == number);
        *found.expect("the library has thirty-five numbers")
    }
}

impl FilterError {
    /// Where the word begins that the error is about, in bytes from the start of the text; of
    /// `Incomplete` the length of the text.
    pub fn place(&self) -> usize {
        self.numbers().place
    }

    // The error with these numbers, which the library gave for a text.
    fn of(refusal: &ffi::filter::FilterRefusal) -> FilterError {
        let place = refusal.place;
        match refusal.kind {
            ffi::filter::UNEXPECTED => FilterError::Unexpected {
                place,
                expected: Expected::of(refusal.expected),
            },
            ffi::filter::MIXED => FilterError::Mixed {
                place,
                operator: match refusal.found {
                    ffi::filter::FOUND_AND => Operator::And,
                    _ => Operator::Or,
                },
            },
            ffi::filter::UNSUPPORTED => FilterError::Unsupported { place },
            ffi::filter::INCOMPLETE => FilterError::Incomplete {
                place,
                expected: Expected::of(refusal.expected),
            },
            _ => FilterError::TooLong { place },
        }
    }

    fn numbers(&self) -> ffi::filter::FilterRefusal {
        let (kind, place, expected, found) = match *self {
            FilterError::Unexpected { place, expected } => {
                (ffi::filter::UNEXPECTED, place, expected as u16, 0)
            }
            FilterError::Mixed { place, operator } => {
                (ffi::filter::MIXED, place, 0, operator as u16)
            }
            FilterError::Unsupported { place } => (ffi::filter::UNSUPPORTED, place, 0, 0),
            FilterError::Incomplete { place, expected } => {
                (ffi::filter::INCOMPLETE, place, expected as u16, 0)
            }
            FilterError::TooLong { place } => (ffi::filter::TOO_LONG, place, 0, 0),
        };
        ffi::filter::FilterRefusal {
            place,
            kind,
            expected,
            found,
        }
    }
}

/// Says where the text is no expression, and what could stand there.
impl fmt::Display for FilterError {
    fn fmt(&self, f: &mut fmt::Formatter<'_>) -> fmt::Result {
        show_text::<{ ffi::filter::ERROR_TEXT_SIZE }>(f, |text| {
            let (at, len) = (text.as_mut_ptr(), text.len());
            // SAFETY: the pointer and the length are those of one slice.
            unsafe { ffi::filter::etherparse_filter_error_text(&self.numbers(), at, len) }
        })
    }
}

impl Error for FilterError {}
