//! Bytes as a whole buffer, and as a range of a longer one.

use crate::text::Words;

/// Bytes around the range in a longer buffer. A reader that goes on behind its
/// range finds the end of a varint there.
const BEFORE: [u8; 3] = [0x0a, 0x80, 0x02];
pub const BEHIND: [u8; 2] = [0x01, 0x0a];

/// A buffer, and a range of it.
pub struct Around {
    pub buffer: Vec<u8>,
    pub start: usize,
    pub len: usize,
}

/// The answer about the bytes as a whole buffer; inside a longer one it must
/// be the same.
pub fn told_in_both(bytes: &[u8], ask: impl Fn(Around) -> String) -> Words {
    let around = |before: &[u8], behind: &[u8]| Around {
        buffer: [before, bytes, behind].concat(),
        start: before.len(),
        len: bytes.len(),
    };
    let whole = ask(around(&[], &[]));
    let inside = ask(around(&BEFORE, &BEHIND));
    let mut out = Words::new();
    out.put(&whole);
    if inside != whole {
        out.put("but inside a longer buffer").put(inside);
    }
    out
}
