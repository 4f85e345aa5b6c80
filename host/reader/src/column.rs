//! Columns: varints up to an end, and how each kind of column reads its raw
//! 64-bit values. A column is read through a small state, a place and an end.
//! keys_vals alone has no reading of its own: it keeps all 64 bits.

use crate::number::{Refusal, OUTSIDE};
use crate::part::Part;
use crate::wire::read_varint;

/// The place of the next varint of a column, and the column's end.
#[derive(Clone, Copy, Debug, Default, PartialEq, Eq)]
pub struct Column {
    pub at: usize,
    pub end: usize,
}

impl Column {
    /// The column that a part holds; an absent part is a column at its end.
    pub fn of(part: Part) -> Column {
        Column {
            at: part.start,
            end: part.end(),
        }
    }

    /// A column state is inside where at <= end <= the buffer's length.
    pub fn is_inside(&self, buffer: &[u8]) -> bool {
        self.at <= self.end && self.end <= buffer.len()
    }

    /// The next raw value, none at the end; 14 where the state is outside.
    pub fn next(&mut self, buffer: &[u8]) -> Result<Option<u64>, Refusal> {
        if self.at == self.end && self.end <= buffer.len() {
            return Ok(None);
        }
        self.due(buffer).map(Some)
    }

    /// The next raw value where one is due: 2 at the end; 14 where the state
    /// is outside.
    pub fn due(&mut self, buffer: &[u8]) -> Result<u64, Refusal> {
        if self.end > buffer.len() {
            return Err(OUTSIDE);
        }
        let (value, next) = read_varint(&buffer[..self.end], self.at)?;
        self.at = next;
        Ok(value)
    }

    /// Reads the whole column and counts its values.
    pub fn count(mut self, buffer: &[u8]) -> Result<usize, Refusal> {
        let mut count = 0;
        while self.next(buffer)?.is_some() {
            count += 1;
        }
        Ok(count)
    }

    /// Reads the whole column, each value through `read`.
    pub fn values<T>(mut self, buffer: &[u8], read: fn(u64) -> T) -> Result<Vec<T>, Refusal> {
        let mut values = Vec::new();
        while let Some(raw) = self.next(buffer)? {
            values.push(read(raw));
        }
        Ok(values)
    }
}

/// int64: two's complement.
pub fn int64(raw: u64) -> i64 {
    raw as i64
}

/// int32: the low 32 bits, two's complement.
pub fn int32(raw: u64) -> i32 {
    raw as u32 as i32
}

/// uint32: the low 32 bits.
pub fn uint32(raw: u64) -> u32 {
    raw as u32
}

/// bool: true unless 0.
pub fn boolean(raw: u64) -> bool {
    raw != 0
}

/// sint64: an even n means n / 2, an odd n means -((n + 1) / 2), which is the
/// complement of n / 2 and so exact at both ends.
pub fn sint64(raw: u64) -> i64 {
    let half = (raw / 2) as i64;
    if raw.is_multiple_of(2) {
        half
    } else {
        !half
    }
}

/// sint32: the low 32 bits, unzigzagged.
pub fn sint32(raw: u64) -> i32 {
    let low = uint32(raw);
    let half = (low / 2) as i32;
    if low.is_multiple_of(2) {
        half
    } else {
        !half
    }
}
