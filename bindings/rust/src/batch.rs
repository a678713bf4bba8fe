use crate::{ffi, parts, LaxSlicedPacket, LinkType};
use core::iter::FusedIterator;
use core::marker::PhantomData;

/// Room for what the library answers of `N` frames in one call, which is 248 bytes for each. A
/// buffer with no room does not compile:
///
/// ```compile_fail,E0080
/// let buffer = etherparse_proved::PacketBuffer::<0>::new();
/// ```
pub struct PacketBuffer<const N: usize> {
    // Those of the last call. Their pointers are used only while that call's frames live.
    frames: [ffi::Frame; N],
    answers: [ffi::Packet; N],
}

// SAFETY: only a batch that borrows the buffer, and the frames as well, reads through the pointers.
unsafe impl<const N: usize> Send for PacketBuffer<N> {}
// SAFETY: likewise, and it borrows the buffer for itself.
unsafe impl<const N: usize> Sync for PacketBuffer<N> {}

impl<const N: usize> PacketBuffer<N> {
    /// A buffer that no call has used.
    pub fn new() -> PacketBuffer<N> {
        const { assert!(N > 0, "a buffer has room for a frame") }
        PacketBuffer {
            frames: [listed(&[]); N],
            answers: [ffi::Packet::default(); N],
        }
    }
}

impl<const N: usize> Default for PacketBuffer<N> {
    fn default() -> PacketBuffer<N> {
        PacketBuffer::new()
    }
}

// A frame as the library takes it. Layers do not depend on its length on the wire.
fn listed(frame: &[u8]) -> ffi::Frame {
    let (at, len) = parts(frame);
    ffi::Frame {
        at,
        len,
        original_len: len,
    }
}

/// The frames of a batch with their layers: what [`LaxSlicedPacket::batch`] returns. A packet lives as
/// long as its frame, and no longer:
///
/// ```compile_fail,E0597
/// use etherparse_proved::{LaxSlicedPacket, LinkType, PacketBuffer};
///
/// let mut buffer = PacketBuffer::<2>::new();
/// let first = {
///     let frame = [0x45, 0];
///     LaxSlicedPacket::batch(LinkType::RAW, [&frame[..]], false, &mut buffer).next()
/// };
/// assert!(first.is_some());
/// ```
pub struct LaxBatch<'a, 'b, I, const N: usize> {
    link_type: LinkType,
    frames: I,
    checksums: bool,
    buffer: &'b mut PacketBuffer<N>,
    // The places in the buffer of what the last call answered and is not yet taken.
    next: usize,
    end: usize,
    frame: PhantomData<&'a [u8]>,
}

impl<'a, 'b, I: Iterator<Item = &'a [u8]>, const N: usize> LaxBatch<'a, 'b, I, N> {
    pub(crate) fn new(
        link_type: LinkType,
        frames: I,
        checksums: bool,
        buffer: &'b mut PacketBuffer<N>,
    ) -> LaxBatch<'a, 'b, I, N> {
        LaxBatch {
            link_type,
            frames,
            checksums,
            buffer,
            next: 0,
            end: 0,
            frame: PhantomData,
        }
    }

    // Has the library read the next frames.
    fn fill(&mut self) {
        (self.next, self.end) = (0, 0);
        let PacketBuffer { frames, answers } = &mut *self.buffer;
        let mut count = 0;
        while count < N {
            let Some(frame) = self.frames.next() else {
                break;
            };
            frames[count] = listed(frame);
            count += 1;
        }
        // SAFETY: `count` frames were listed, each a slice that lives for 'a, and there are N
        // answers.
        self.end = unsafe {
            ffi::etherparse_packet_lax_batch(
                self.link_type.0,
                frames.as_ptr(),
                count,
                self.checksums,
                answers.as_mut_ptr(),
                N,
            )
        };
    }
}

impl<'a, I: Iterator<Item = &'a [u8]>, const N: usize> Iterator for LaxBatch<'a, '_, I, N> {
    type Item = (&'a [u8], LaxSlicedPacket<'a>);

    fn next(&mut self) -> Option<Self::Item> {
        if self.next == self.end {
            self.fill();
            if self.end == 0 {
                return None;
            }
        }
        let (frame, answer) = (
            self.buffer.frames[self.next],
            &self.buffer.answers[self.next],
        );
        self.next += 1;
        // SAFETY: this batch listed the frame, which is a slice that lives for 'a.
        let frame = unsafe { core::slice::from_raw_parts(frame.at, frame.len) };
        Some((frame, LaxSlicedPacket::of(frame, answer)))
    }

    fn size_hint(&self) -> (usize, Option<usize>) {
        let (least, most) = self.frames.size_hint();
        let taken = self.end - self.next;
        (
            least.saturating_add(taken),
            most.and_then(|most| most.checked_add(taken)),
        )
    }
}

impl<'a, I: FusedIterator<Item = &'a [u8]>, const N: usize> FusedIterator
    for LaxBatch<'a, '_, I, N>
{
}
