//! Captures: their headings and records.

use crate::packets::Link;
use std::ops::Range;

/// The most captured bytes of a frame.
const MOST_CAPTURED: usize = 262_144;

/// What a capture's heading says of its records.
#[derive(Clone, Copy)]
pub struct Heading {
    is_big: bool,
    scale: u64,
    pub link: Link,
}

/// A record: its stamp in nanoseconds, and where its frame stands, behind 16 bytes of its own.
pub struct Record {
    pub stamp: u64,
    pub frame: Range<usize>,
}

/// A record says that it is longer than a record may be.
pub struct TooLong;

impl Heading {
    pub const SIZE: usize = 24;

    pub fn of(bytes: &[u8]) -> Option<Self> {
        let (is_big, scale) = match bytes.get(..4)? {
            [0xa1, 0xb2, 0xc3, 0xd4] => (true, 1_000),
            [0xd4, 0xc3, 0xb2, 0xa1] => (false, 1_000),
            [0xa1, 0xb2, 0x3c, 0x4d] => (true, 1),
            [0x4d, 0x3c, 0xb2, 0xa1] => (false, 1),
            _ => return None,
        };
        let mut heading = Heading { is_big, scale, link: Link::Raw };
        let version: [u8; 4] = if is_big { [0, 2, 0, 4] } else { [2, 0, 4, 0] };
        let rest = bytes.get(4..Self::SIZE)?;
        heading.link = match heading.number(rest, 16) & 0xffff {
            1 => Link::Ethernet,
            101 | 228 => Link::Raw,
            _ => return None,
        };
        (rest[..4] == version).then_some(heading)
    }

    fn number(&self, bytes: &[u8], place: usize) -> u32 {
        let word = [bytes[place], bytes[place + 1], bytes[place + 2], bytes[place + 3]];
        if self.is_big { u32::from_be_bytes(word) } else { u32::from_le_bytes(word) }
    }

    /// The record that starts at a place, if it stands there whole.
    pub fn record(&self, bytes: &[u8], place: usize) -> Result<Option<Record>, TooLong> {
        let Some(head) = bytes.get(place..place + 16) else {
            return Ok(None);
        };
        let captured = self.number(head, 8) as usize;
        let start = place + 16;
        if captured > MOST_CAPTURED {
            return Err(TooLong);
        }
        let stamp = u64::from(self.number(head, 0)) * 1_000_000_000 + u64::from(self.number(head, 4)) * self.scale;
        Ok((captured <= bytes.len() - start).then(|| Record { stamp, frame: start..start + captured }))
    }
}
