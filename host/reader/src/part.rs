//! A part of the lent buffer, present or not, by start and length. One struct
//! serves columns, Info, DenseInfo, pins and the dense message.

use crate::number::{Refusal, OUTSIDE};

/// A part of the buffer; start and length are 0 where nothing is present.
#[derive(Clone, Copy, Debug, Default, PartialEq, Eq)]
pub struct Part {
    pub present: bool,
    pub start: usize,
    pub len: usize,
}

impl Part {
    /// Nothing.
    pub const ABSENT: Part = Part {
        present: false,
        start: 0,
        len: 0,
    };

    /// A present part.
    pub fn at(start: usize, len: usize) -> Part {
        Part {
            present: true,
            start,
            len,
        }
    }

    /// Where the part ends. Parts made by the views lie inside the buffer, so
    /// the sum does not saturate for them.
    pub fn end(&self) -> usize {
        self.start.saturating_add(self.len)
    }

    /// Whether the range lies inside the buffer.
    pub fn is_inside(&self, buffer: &[u8]) -> bool {
        range_end(buffer.len(), self.start, self.len).is_ok()
    }
}

/// The end of a range, or 14 where the range passes `buffer_len`. The sum is
/// mathematical: one that would wrap passes every buffer.
pub fn range_end(buffer_len: usize, start: usize, len: usize) -> Result<usize, Refusal> {
    match start.checked_add(len) {
        Some(end) if end <= buffer_len => Ok(end),
        _ => Err(OUTSIDE),
    }
}

/// The bytes of a part, lent and not copied: empty where nothing is present
/// or the range passes the buffer.
pub fn bytes_of(buffer: &[u8], part: Part) -> &[u8] {
    match range_end(buffer.len(), part.start, part.len) {
        Ok(end) if part.present => &buffer[part.start..end],
        _ => &[],
    }
}
