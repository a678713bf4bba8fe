//! Fragments of IP packets put together, in memory that the caller lends.
//!
//! The datagram that fragments give does not depend on the order in which they come, nor on
//! repetitions. Two that contradict each other discard the datagram (RFC 5722, RFC 8200 section 4.5;
//! of IPv4 too, by choice).

use crate::err::show_text;
use crate::ffi::reassembly as ffi;
use crate::{parts, IpFragOffset};
use core::error::Error;
use core::fmt;
use core::marker::PhantomData;

/// The memory that the datagram of a slot takes, in bytes.
pub const SLOT_MEMORY: usize = ffi::SLOT_MEMORY;

/// The longest packet, in bytes: an IPv6 header, and the longest payload.
pub const PACKET_SIZE: usize = ffi::PACKET_SIZE;

/// How long RFC 8200 section 4.5 has a datagram kept, in seconds.
pub const TIMEOUT_SECONDS: u64 = ffi::TIMEOUT_SECONDS;

/// What is known of a datagram.
#[derive(Clone, Copy, Debug, PartialEq, Eq, Hash)]
pub enum DatagramState {
    /// Not all of it has come.
    Incomplete,
    /// All of it has come.
    Complete,
    /// Two of its fragments contradict each other, or one has the ECN codepoint CE and another
    /// Not-ECT (RFC 3168 section 5.3).
    Discarded,
}

impl DatagramState {
    // The state of a number that the library gave; `None` if it is that of no datagram.
    fn of(number: u32) -> Option<DatagramState> {
        match number {
            ffi::INCOMPLETE => Some(DatagramState::Incomplete),
            ffi::COMPLETE => Some(DatagramState::Complete),
            ffi::DISCARDED => Some(DatagramState::Discarded),
            _ => None,
        }
    }
}

/// Room for one datagram, 73792 bytes. What is in it makes no difference.
pub struct IpDefragMemory {
    state: ffi::DefragBufState,
    bytes: [u8; ffi::BUF_MEMORY],
}

impl IpDefragMemory {
    /// Room that no datagram has used.
    pub const fn new() -> IpDefragMemory {
        IpDefragMemory {
            state: ffi::DefragBufState { words: [0; 8] },
            bytes: [0; ffi::BUF_MEMORY],
        }
    }
}

impl Default for IpDefragMemory {
    fn default() -> IpDefragMemory {
        IpDefragMemory::new()
    }
}

/// The fragments that have come of one datagram. It borrows its memory for itself, and so does each
/// call.
///
/// ```
/// use etherparse_proved::reassembly::{IpDefragBuf, IpDefragMemory};
/// use etherparse_proved::IpFragOffset;
///
/// let mut memory = IpDefragMemory::new();
/// let mut buf = IpDefragBuf::new(&mut memory);
/// buf.add(IpFragOffset::try_new(1).unwrap(), false, &[9, 10])?;
/// buf.add(IpFragOffset::ZERO, true, &[1, 2, 3, 4, 5, 6, 7, 8])?;
/// let mut out = [0; 16];
/// assert_eq!(buf.datagram(&mut out), Some(&[1, 2, 3, 4, 5, 6, 7, 8, 9, 10][..]));
/// # Ok::<(), etherparse_proved::reassembly::IpDefragError>(())
/// ```
///
/// The memory stays where it is as long as that lives:
///
/// ```compile_fail,E0505
/// use etherparse_proved::reassembly::{IpDefragBuf, IpDefragMemory};
///
/// let mut memory = IpDefragMemory::new();
/// let mut buf = IpDefragBuf::new(&mut memory);
/// let moved = memory;
/// buf.clear();
/// ```
pub struct IpDefragBuf<'a> {
    // The state that the library made in the memory, which stays in its place for 'a.
    buf: ffi::DefragBuf,
    memory: PhantomData<&'a mut IpDefragMemory>,
}

// SAFETY: it is a mutable borrow of its memory.
unsafe impl Send for IpDefragBuf<'_> {}
// SAFETY: likewise, and no call takes a shared reference.
unsafe impl Sync for IpDefragBuf<'_> {}

impl<'a> IpDefragBuf<'a> {
    /// A datagram of which nothing has come.
    pub fn new(memory: &'a mut IpDefragMemory) -> IpDefragBuf<'a> {
        let IpDefragMemory { state, bytes } = memory;
        let state: *mut ffi::DefragBufState = state;
        // SAFETY: the memory has the length that is asked for. Both are borrowed for 'a, so that
        // they are neither moved nor used otherwise while the answer lives.
        unsafe { ffi::etherparse_defrag_buf_new(state, bytes.as_mut_ptr(), bytes.len()) }
        IpDefragBuf {
            buf: ffi::DefragBuf { state },
            memory: PhantomData,
        }
    }

    /// Takes a fragment: its offset, whether more fragments follow, and its bytes. An exact duplicate
    /// of one that has come changes nothing. The datagram is discarded for good if the fragment
    /// contradicts one that has come: they overlap and are not the same, or one goes past the end
    /// that the other tells.
    ///
    /// # Errors
    ///
    /// The first that applies; nothing changes then.
    pub fn add(
        &mut self,
        offset: IpFragOffset,
        more_fragments: bool,
        payload: &[u8],
    ) -> Result<(), IpDefragError> {
        let (at, len) = parts(payload);
        let (offset, buf) = (offset.value(), &mut self.buf);
        // SAFETY: the state is one that the library made, and is borrowed for this call alone. The
        // pointer and the length are those of one slice.
        let error = unsafe { ffi::etherparse_defrag_buf_add(buf, offset, more_fragments, at, len) };
        IpDefragError::of(&error).map_or(Ok(()), Err)
    }

    /// What is known of the datagram.
    pub fn state(&mut self) -> DatagramState {
        // SAFETY: as above.
        let state = unsafe { ffi::etherparse_defrag_buf_datagram_state(&mut self.buf) };
        DatagramState::of(state).expect("there is a datagram")
    }

    /// The length of the datagram in bytes; `None` if it is not complete.
    pub fn datagram_len(&mut self) -> Option<usize> {
        Some(self.write(&mut [])).filter(|len| *len > 0)
    }

    /// Writes the datagram to the front of a buffer, and returns it. `None` if it is not complete, or
    /// does not fit; then the buffer stays as it is.
    pub fn datagram<'b>(&mut self, out: &'b mut [u8]) -> Option<&'b [u8]> {
        let len = self.write(out);
        out.get(..len).filter(|datagram| !datagram.is_empty())
    }

    fn write(&mut self, out: &mut [u8]) -> usize {
        // SAFETY: as above.
        unsafe { ffi::etherparse_defrag_buf_datagram(&mut self.buf, out.as_mut_ptr(), out.len()) }
    }

    /// Forgets all that has come.
    pub fn clear(&mut self) {
        // SAFETY: as above.
        unsafe { ffi::etherparse_defrag_buf_clear(&mut self.buf) }
    }
}

/// Room for the state of a pool.
pub struct IpDefragPoolState(ffi::DefragPoolState);

impl IpDefragPoolState {
    /// Room that no pool has used.
    pub const fn new() -> IpDefragPoolState {
        IpDefragPoolState(ffi::DefragPoolState { words: [0; 3] })
    }
}

impl Default for IpDefragPoolState {
    fn default() -> IpDefragPoolState {
        IpDefragPoolState::new()
    }
}

/// Room for what a pool knows of one datagram, beside its memory.
#[derive(Clone)]
#[repr(transparent)]
pub struct IpDefragSlot(ffi::DefragSlot);

impl IpDefragSlot {
    /// Room that no pool has used.
    pub const fn new() -> IpDefragSlot {
        IpDefragSlot(ffi::DefragSlot { words: [0; 21] })
    }
}

impl Default for IpDefragSlot {
    fn default() -> IpDefragSlot {
        IpDefragSlot::new()
    }
}

/// Equal for all fragments of one packet: the fields by which a receiver puts them together, and the
/// VLANs that they came in.
#[derive(Clone, Copy, Debug, PartialEq, Eq, Hash)]
pub struct IpFragId {
    /// The VLAN identifier of the outer tag, if the caller tells fragments apart by it.
    pub outer_vlan_id: Option<u16>,
    /// That of the inner tag.
    pub inner_vlan_id: Option<u16>,
    /// The fields of the packet.
    pub ip: IpFragVersionSpecId,
}

/// The fields of a packet by which its fragments are put together.
#[derive(Clone, Copy, Debug, PartialEq, Eq, Hash)]
pub enum IpFragVersionSpecId {
    /// Those of IPv4 (RFC 791 section 3.2).
    Ipv4 {
        /// The address of the sender.
        source: [u8; 4],
        /// The address of the receiver.
        destination: [u8; 4],
        /// The protocol of what was fragmented.
        protocol: u8,
        /// The number that the sender gave the packet.
        identification: u16,
    },
    /// Those of IPv6 (RFC 8200 section 4.5).
    Ipv6 {
        /// The address of the sender.
        source: [u8; 16],
        /// The address of the receiver.
        destination: [u8; 16],
        /// The number that the sender gave the packet.
        identification: u32,
    },
}

impl IpFragId {
    // The id that the library gave; `None` if there is none.
    fn of(id: &ffi::FragId) -> Option<IpFragId> {
        let first = |address: &[u8; 16]| core::array::from_fn(|byte| address[byte]);
        let ip = match id.version {
            4 => IpFragVersionSpecId::Ipv4 {
                source: first(&id.source),
                destination: first(&id.destination),
                protocol: id.protocol,
                // That of IPv4 has 16 bits.
                identification: id.identification as u16,
            },
            6 => IpFragVersionSpecId::Ipv6 {
                source: id.source,
                destination: id.destination,
                identification: id.identification,
            },
            _ => return None,
        };
        Some(IpFragId {
            outer_vlan_id: u16::try_from(id.outer_vlan_id).ok(),
            inner_vlan_id: u16::try_from(id.inner_vlan_id).ok(),
            ip,
        })
    }
}

/// What became of a fragment.
#[derive(Clone, Copy, Debug, PartialEq, Eq, Hash)]
pub struct Added {
    /// The slot of its datagram.
    pub slot: usize,
    /// What is known of the datagram.
    pub state: DatagramState,
    /// The datagram that was given up for it: the oldest, if no slot was left, or an older one with
    /// the same id, after the timeout.
    pub given_up: Option<IpFragId>,
}

/// Many datagrams at once, in slots. It borrows their memory for itself, and so does each call.
pub struct IpDefragPool<'a> {
    // The state that the library made in the memory, which stays in its place for 'a.
    pool: ffi::DefragPool,
    count: usize,
    memory: PhantomData<&'a mut [u8]>,
}

// SAFETY: it is a mutable borrow of its memory.
unsafe impl Send for IpDefragPool<'_> {}
// SAFETY: likewise, and no call takes a shared reference.
unsafe impl Sync for IpDefragPool<'_> {}

impl<'a> IpDefragPool<'a> {
    /// A pool in which no datagram is. It has as many slots as there are of those and of memory: the
    /// smaller length of both. A datagram is kept for so many ticks of the caller's clock after its
    /// first-arriving fragment: [`TIMEOUT_SECONDS`], if those are seconds.
    ///
    /// # Panics
    ///
    /// If there is no slot.
    pub fn new(
        state: &'a mut IpDefragPoolState,
        slots: &'a mut [IpDefragSlot],
        memory: &'a mut [[u8; SLOT_MEMORY]],
        timeout: u64,
    ) -> IpDefragPool<'a> {
        let count = slots.len().min(memory.len());
        assert!(count > 0, "a pool has a slot");
        for (slot, bytes) in slots.iter_mut().zip(memory) {
            // SAFETY: the memory has the length that is asked for. Both are borrowed for 'a, so that
            // they are neither moved nor used otherwise while the pool lives.
            unsafe { ffi::etherparse_defrag_slot_new(&mut slot.0, bytes.as_mut_ptr(), SLOT_MEMORY) }
        }
        let state: *mut ffi::DefragPoolState = &mut state.0;
        // SAFETY: the first `count` slots are those that were just made, and have the layout of the
        // library's; the state is borrowed for 'a too.
        unsafe {
            ffi::etherparse_defrag_pool_new(state, slots.as_mut_ptr().cast(), count, timeout);
        }
        IpDefragPool {
            pool: ffi::DefragPool { state },
            count,
            memory: PhantomData,
        }
    }

    /// Adds the fragment that an IP packet is, without the link header, to its datagram. If none has
    /// its id, it takes a slot: one that none has, or else that of the oldest. A datagram as old as
    /// the timeout, or older, is given up when a fragment with its id comes. The other slots do not
    /// change. What follows the packet does not count.
    ///
    /// The ECN codepoint of each fragment counts, also that of an exact duplicate: if one has CE and
    /// another Not-ECT, the datagram is discarded for good (RFC 3168 section 5.3).
    ///
    /// `None` if the packet is whole: it is no fragment, and nothing changes.
    ///
    /// # Errors
    ///
    /// The first that applies, which depends on the packet alone; nothing changes then.
    pub fn add_packet(
        &mut self,
        packet: &[u8],
        outer_vlan_id: Option<u16>,
        inner_vlan_id: Option<u16>,
        now: u64,
    ) -> Result<Option<Added>, IpDefragPacketError> {
        let (at, len) = parts(packet);
        let [outer, inner] =
            [outer_vlan_id, inner_vlan_id].map(|id| id.map_or(ffi::NO_VLAN, u32::from));
        let pool = &mut self.pool;
        // SAFETY: the pool is one that the library made, and is borrowed for this call alone. The
        // pointer and the length are those of one slice.
        let added =
            unsafe { ffi::etherparse_defrag_pool_add_packet(pool, at, len, outer, inner, now) };
        if let Some(error) = IpDefragPacketError::of(&added.error) {
            return Err(error);
        }
        Ok(DatagramState::of(added.state).map(|state| Added {
            slot: added.slot,
            state,
            given_up: IpFragId::of(&added.given_up),
        }))
    }

    /// Writes the packet of the datagram in a slot to the front of a buffer, and returns it: with the
    /// headers of the first copy of the fragment at offset 0 that came, with the new length, with the
    /// ECN codepoint CE if any fragment had it, and in IPv4 the new checksum; in IPv6 without the
    /// fragment header. `None` if the datagram is not complete. The slot stays as it is: release it
    /// once the packet is done with.
    ///
    /// # Errors
    ///
    /// `PacketTooLong`.
    ///
    /// # Panics
    ///
    /// If the pool has no such slot.
    pub fn write_packet<'b>(
        &mut self,
        slot: usize,
        out: &'b mut [u8; PACKET_SIZE],
    ) -> Result<Option<&'b [u8]>, IpDefragPacketError> {
        assert!(slot < self.count, "the pool has no such slot");
        let (pool, at) = (&mut self.pool, out.as_mut_ptr());
        // SAFETY: as above; the slot is one of the pool, and the buffer has the length that is asked
        // for.
        let written =
            unsafe { ffi::etherparse_defrag_pool_write_packet(pool, slot, at, PACKET_SIZE) };
        match IpDefragPacketError::of(&written.error) {
            Some(error) => Err(error),
            None => Ok(out.get(..written.len).filter(|packet| !packet.is_empty())),
        }
    }

    /// Takes a slot from its datagram.
    ///
    /// # Panics
    ///
    /// If the pool has no such slot.
    pub fn release(&mut self, slot: usize) {
        assert!(slot < self.count, "the pool has no such slot");
        // SAFETY: as above.
        unsafe { ffi::etherparse_defrag_pool_release(&mut self.pool, slot) }
    }
}

/// Why a fragment is refused: no datagram can have it.
#[derive(Clone, Copy, Debug, PartialEq, Eq, Hash)]
pub enum IpDefragError {
    /// It has no bytes.
    Empty {
        /// Its offset, in units of 8 bytes.
        offset: u16,
    },
    /// More fragments follow it, and its length is not a multiple of 8 bytes.
    UnalignedFragmentPayloadLen {
        /// Its offset, in units of 8 bytes.
        offset: u16,
        /// Its length in bytes.
        payload_len: usize,
    },
    /// It ends past byte 65535.
    SegmentTooBig {
        /// Its offset, in units of 8 bytes.
        offset: u16,
        /// Its length in bytes.
        payload_len: usize,
    },
}

/// Why a packet is not added to a pool, or not written.
#[derive(Clone, Copy, Debug, PartialEq, Eq, Hash)]
pub enum IpDefragPacketError {
    /// It is no IP packet, or not all of it is there, or it is one of IPv6 that ends within an
    /// extension header with no fragment header before it that is not atomic.
    Packet,
    /// It is the first fragment of an IPv6 packet, and lacks a part of the header chain (RFC 7112
    /// section 5): after its fragment header it ends within a header, or has the fragment header of
    /// a later fragment.
    HeaderChain,
    /// It is the first fragment of a datagram, and its headers have more than 1280 bytes.
    HeadersTooLong {
        /// Their length in bytes.
        len: usize,
    },
    /// It is a fragment that no datagram can have.
    Fragment(IpDefragError),
    /// The datagram is complete, and its packet would be longer than its length field can say.
    PacketTooLong,
}

impl IpDefragError {
    // The error with these numbers, which the library gave for a fragment; `None` if it is none.
    fn of(error: &ffi::DefragError) -> Option<IpDefragError> {
        let (offset, payload_len) = (error.offset, error.len);
        match error.kind {
            ffi::OK => None,
            ffi::EMPTY => Some(IpDefragError::Empty { offset }),
            ffi::UNALIGNED_LEN => Some(IpDefragError::UnalignedFragmentPayloadLen {
                offset,
                payload_len,
            }),
            ffi::TOO_BIG => Some(IpDefragError::SegmentTooBig {
                offset,
                payload_len,
            }),
            _ => unreachable!("no call gives another error"),
        }
    }

    fn numbers(&self) -> ffi::DefragError {
        let (kind, offset, len) = match *self {
            IpDefragError::Empty { offset } => (ffi::EMPTY, offset, 0),
            IpDefragError::UnalignedFragmentPayloadLen {
                offset,
                payload_len,
            } => (ffi::UNALIGNED_LEN, offset, payload_len),
            IpDefragError::SegmentTooBig {
                offset,
                payload_len,
            } => (ffi::TOO_BIG, offset, payload_len),
        };
        ffi::DefragError { kind, offset, len }
    }
}

impl IpDefragPacketError {
    // The error with these numbers, which the library gave for a packet; `None` if it is none.
    fn of(error: &ffi::DefragError) -> Option<IpDefragPacketError> {
        match error.kind {
            ffi::PACKET => Some(IpDefragPacketError::Packet),
            ffi::HEADER_CHAIN => Some(IpDefragPacketError::HeaderChain),
            ffi::HEADERS_TOO_LONG => Some(IpDefragPacketError::HeadersTooLong { len: error.len }),
            ffi::PACKET_TOO_LONG => Some(IpDefragPacketError::PacketTooLong),
            _ => IpDefragError::of(error).map(IpDefragPacketError::Fragment),
        }
    }

    fn numbers(&self) -> ffi::DefragError {
        let (kind, len) = match self {
            IpDefragPacketError::Packet => (ffi::PACKET, 0),
            IpDefragPacketError::HeaderChain => (ffi::HEADER_CHAIN, 0),
            IpDefragPacketError::HeadersTooLong { len } => (ffi::HEADERS_TOO_LONG, *len),
            IpDefragPacketError::Fragment(error) => return error.numbers(),
            IpDefragPacketError::PacketTooLong => (ffi::PACKET_TOO_LONG, 0),
        };
        let offset = 0;
        ffi::DefragError { kind, offset, len }
    }
}

fn show(error: &ffi::DefragError, f: &mut fmt::Formatter<'_>) -> fmt::Result {
    show_text::<{ ffi::ERROR_TEXT_SIZE }>(f, |text| {
        // SAFETY: the reference is to an error, the pointer and the length are those of one slice.
        unsafe { ffi::etherparse_defrag_error_text(error, text.as_mut_ptr(), text.len()) }
    })
}

/// Says what is wrong, and at which byte of the datagram.
impl fmt::Display for IpDefragError {
    fn fmt(&self, f: &mut fmt::Formatter<'_>) -> fmt::Result {
        show(&self.numbers(), f)
    }
}

/// Says what is wrong, or what the error that it holds says.
impl fmt::Display for IpDefragPacketError {
    fn fmt(&self, f: &mut fmt::Formatter<'_>) -> fmt::Result {
        show(&self.numbers(), f)
    }
}

impl Error for IpDefragError {}

impl Error for IpDefragPacketError {
    fn source(&self) -> Option<&(dyn Error + 'static)> {
        match self {
            IpDefragPacketError::Fragment(e) => Some(e),
            _ => None,
        }
    }
}

/// No part of the memory of a pool can go before the pool. This compiles, and the others do not:
///
/// ```
/// # use etherparse_proved::reassembly::{IpDefragPool as Pool, IpDefragPoolState as State};
/// # use etherparse_proved::reassembly::{IpDefragSlot as Slot, SLOT_MEMORY};
/// fn f<'a>(state: &'a mut State, slots: &'a mut [Slot], memory: &'a mut [[u8; SLOT_MEMORY]]) -> Pool<'a> {
///     Pool::new(state, slots, memory, 60)
/// }
/// ```
///
/// ```compile_fail
/// # use etherparse_proved::reassembly::{IpDefragPool as Pool, IpDefragPoolState as State};
/// # use etherparse_proved::reassembly::{IpDefragSlot as Slot, SLOT_MEMORY};
/// fn f<'a>(state: &mut State, slots: &'a mut [Slot], memory: &'a mut [[u8; SLOT_MEMORY]]) -> Pool<'a> {
///     Pool::new(state, slots, memory, 60)
/// }
/// ```
///
/// ```compile_fail
/// # use etherparse_proved::reassembly::{IpDefragPool as Pool, IpDefragPoolState as State};
/// # use etherparse_proved::reassembly::{IpDefragSlot as Slot, SLOT_MEMORY};
/// fn f<'a>(state: &'a mut State, slots: &mut [Slot], memory: &'a mut [[u8; SLOT_MEMORY]]) -> Pool<'a> {
///     Pool::new(state, slots, memory, 60)
/// }
/// ```
///
/// ```compile_fail
/// # use etherparse_proved::reassembly::{IpDefragPool as Pool, IpDefragPoolState as State};
/// # use etherparse_proved::reassembly::{IpDefragSlot as Slot, SLOT_MEMORY};
/// fn f<'a>(state: &'a mut State, slots: &'a mut [Slot], memory: &mut [[u8; SLOT_MEMORY]]) -> Pool<'a> {
///     Pool::new(state, slots, memory, 60)
/// }
/// ```
#[cfg(doctest)]
struct MemoryOfAPool;
