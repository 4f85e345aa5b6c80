//! Bytes that are lent to C, between two guards, with a copy of what they
//! were: a byte that changes is seen, also one beside the lent slice.

use std::ops::Range;

/// Bytes on each side that are not lent.
const GUARD: usize = 16;

pub struct Lent {
    before: Vec<u8>,
    now: Vec<u8>,
}

impl Lent {
    /// Lends a copy of these bytes.
    pub fn bytes(bytes: &[u8]) -> Lent {
        let mut before = Vec::with_capacity(bytes.len() + 2 * GUARD);
        before.extend((0..GUARD).map(pattern));
        before.extend_from_slice(bytes);
        before.extend((0..GUARD).map(pattern));
        Lent {
            now: before.clone(),
            before,
        }
    }

    /// Lends a slice to write into.
    pub fn room(len: usize) -> Lent {
        let before: Vec<u8> = (0..len + 2 * GUARD).map(pattern).collect();
        Lent {
            now: before.clone(),
            before,
        }
    }

    pub fn slice(&mut self) -> &mut [u8] {
        let end = self.now.len() - GUARD;
        &mut self.now[GUARD..end]
    }

    /// Puts other bytes into the slice, from a place on, before it is lent
    /// again.
    pub fn set(&mut self, at: usize, bytes: &[u8]) {
        let range = GUARD + at..GUARD + at + bytes.len();
        self.before[range.clone()].copy_from_slice(bytes);
        self.now[range].copy_from_slice(bytes);
    }

    pub fn is_unchanged(&self) -> bool {
        self.now == self.before
    }

    /// Whether the bytes of a range of the slice are as they were.
    pub fn is_kept(&self, range: Range<usize>) -> bool {
        let range = GUARD + range.start..GUARD + range.end;
        self.now[range.clone()] == self.before[range]
    }

    /// Takes the bytes of a range of the slice as they are now, to be lent
    /// again.
    pub fn keep(&mut self, range: Range<usize>) {
        let range = GUARD + range.start..GUARD + range.end;
        self.before[range.clone()].copy_from_slice(&self.now[range]);
    }

    /// Undoes what changed in a range of the slice.
    pub fn undo(&mut self, range: Range<usize>) {
        let range = GUARD + range.start..GUARD + range.end;
        self.now[range.clone()].copy_from_slice(&self.before[range]);
    }

    /// Whether no byte changed but those of a range of the slice.
    pub fn is_unchanged_but(&self, range: Range<usize>) -> bool {
        let (start, end) = (GUARD + range.start, GUARD + range.end);
        self.now[..start] == self.before[..start] && self.now[end..] == self.before[end..]
    }
}

/// No two neighbours are equal and few bytes are 0, so that a byte that is
/// copied or cleared differs.
fn pattern(at: usize) -> u8 {
    (at as u8).wrapping_mul(37) ^ 0xc3
}
