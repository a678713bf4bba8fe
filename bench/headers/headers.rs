//! The loop of `headers.rt.txt` in Rust, written by hand: a header is an array of its fixed bytes and a slice of its options, which
//! come from an iterator of the same shape.

use std::slice;

struct Header<'a> {
    fixed: &'a [u8; 20],
    options: &'a [u8],
}

impl<'a> Header<'a> {
    fn from_slice(slice: &'a [u8]) -> Option<Header<'a>> {
        let fixed = slice.first_chunk::<20>()?;
        let offset = fixed[12] >> 4;
        if offset < 5 {
            return None;
        }
        let options = slice.get(20..4 * usize::from(offset))?;
        Some(Header { fixed, options })
    }

    fn number_16(&self, at: usize) -> u64 {
        u64::from(u16::from_be_bytes([self.fixed[at], self.fixed[at + 1]]))
    }

    fn number_32(&self, at: usize) -> u64 {
        u64::from(number_at(self.fixed, at))
    }

    fn fields(&self) -> u64 {
        self.number_16(0)
            .wrapping_add(self.number_16(2).wrapping_mul(2))
            .wrapping_add(self.number_32(4).wrapping_mul(3))
            .wrapping_add(self.number_32(8).wrapping_mul(5))
            .wrapping_add(u64::from(self.fixed[13]).wrapping_mul(7))
            .wrapping_add(self.number_16(14).wrapping_mul(11))
            .wrapping_add(self.number_16(16).wrapping_mul(13))
            .wrapping_add(self.number_16(18).wrapping_mul(17))
    }
}

fn number_at(slice: &[u8], at: usize) -> u32 {
    u32::from_be_bytes([slice[at], slice[at + 1], slice[at + 2], slice[at + 3]])
}

enum Element {
    Noop,
    MaximumSegmentSize(u16),
    WindowScale(u8),
    Permitted,
    Blocks((u32, u32), [Option<(u32, u32)>; 3]),
    Timestamp(u32, u32),
}

enum Refusal {
    End { kind: u8, needed: u8, left: usize },
    Size { kind: u8, len: u8 },
    Unknown(u8),
}

struct Options<'a>(&'a [u8]);

impl Iterator for Options<'_> {
    type Item = Result<Element, Refusal>;

    fn next(&mut self) -> Option<Self::Item> {
        let s = self.0;
        if s.is_empty() || s[0] == 0 {
            return None;
        }
        let found = option_at(s);
        self.0 = match &found {
            Ok((_, len)) => &s[*len..],
            Err(_) => &[],
        };
        Some(found.map(|(element, _)| element))
    }
}

fn option_at(s: &[u8]) -> Result<(Element, usize), Refusal> {
    let expect = |len: u8| {
        if s.len() < usize::from(len) {
            return Err(Refusal::End { kind: s[0], needed: len, left: s.len() });
        }
        if s[1] != len {
            return Err(Refusal::Size { kind: s[0], len: s[1] });
        }
        Ok(())
    };
    Ok(match s[0] {
        1 => (Element::Noop, 1),
        2 => {
            expect(4)?;
            (Element::MaximumSegmentSize(u16::from_be_bytes([s[2], s[3]])), 4)
        }
        3 => {
            expect(3)?;
            (Element::WindowScale(s[2]), 3)
        }
        4 => {
            expect(2)?;
            (Element::Permitted, 2)
        }
        5 => {
            if s.len() < 2 {
                return Err(Refusal::End { kind: 5, needed: 2, left: s.len() });
            }
            let len = s[1];
            if !matches!(len, 10 | 18 | 26 | 34) {
                return Err(Refusal::Size { kind: 5, len });
            }
            if s.len() < usize::from(len) {
                return Err(Refusal::End { kind: 5, needed: len, left: s.len() });
            }
            let block = |at: usize| (number_at(s, at), number_at(s, at + 4));
            let others = match len {
                10 => [None; 3],
                18 => [Some(block(10)), None, None],
                26 => [Some(block(10)), Some(block(18)), None],
                _ => [Some(block(10)), Some(block(18)), Some(block(26))],
            };
            (Element::Blocks(block(2), others), usize::from(len))
        }
        8 => {
            expect(10)?;
            (Element::Timestamp(number_at(s, 2), number_at(s, 6)), 10)
        }
        kind => return Err(Refusal::Unknown(kind)),
    })
}

fn element_fields(element: Element) -> u64 {
    let block = |(left, right): (u32, u32)| u64::from(left).wrapping_add(u64::from(right).wrapping_mul(3));
    match element {
        Element::Noop => 2,
        Element::MaximumSegmentSize(size) => u64::from(size) + 3,
        Element::WindowScale(shift) => u64::from(shift) + 4,
        Element::Permitted => 5,
        Element::Blocks(first, others) => {
            others.iter().fold(block(first), |all, other| all.wrapping_add(other.map_or(1, block)))
        }
        Element::Timestamp(value, echo) => u64::from(value).wrapping_add(u64::from(echo).wrapping_mul(2)),
    }
}

fn refusal_fields(refusal: Refusal) -> u64 {
    match refusal {
        Refusal::End { kind, needed, left } => u64::from(kind) + u64::from(needed) + left as u64,
        Refusal::Size { kind, len } => u64::from(kind) + 2 * u64::from(len),
        Refusal::Unknown(kind) => u64::from(kind) + 6,
    }
}

/// # Safety
///
/// There are `count` slices at `at`.
#[no_mangle]
pub unsafe extern "C" fn rust_headers(at: *const &[u8], count: usize) -> u64 {
    let mut all: u64 = 0;
    for segment in slice::from_raw_parts(at, count) {
        let fields = match Header::from_slice(segment) {
            Some(header) => {
                let mut options: u64 = 0;
                for option in Options(header.options) {
                    let fields = option.map_or_else(refusal_fields, element_fields);
                    options = options.wrapping_mul(3).wrapping_add(fields);
                }
                header.fields().wrapping_add(options)
            }
            None => 1,
        };
        all = all.wrapping_mul(3).wrapping_add(fields);
    }
    all
}
