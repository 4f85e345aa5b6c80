//! The proved library through its C functions. All of it comes from
//! include/nuorpyts.h, which the build script reads: the constants without
//! their prefix, and one safe function for each declaration, which passes a
//! slice as its pointer and its length. All of this workspace's `unsafe` is in
//! what that script writes (`build/rust.rs`).
//!
//! A call is safe since the library asks nothing of its caller (no function
//! has a `requires`) but that the slices are what they say, and Rust sees to
//! that. A buffer that is only read is taken by `&mut` all the same: behind a
//! `&` the compiler might take for granted that it stays as it was, and the
//! comparison is there to see whether it does.

include!(concat!(env!("OUT_DIR"), "/declarations.rs"));

/// The archive that is linked.
pub const ARCHIVE: &str = env!("NUORPYTS_ARCHIVE");

/// Reads a range of a buffer: the buffer, the range's start and length, and
/// the slice for the answer.
pub type InRange = fn(&mut [u8], usize, usize, &mut [u8]) -> u32;

/// Reads what a record says of a buffer: the buffer, the record, an index,
/// and the slice for the answer.
pub type ByRecord = fn(&mut [u8], &mut [u8], usize, &mut [u8]) -> u32;

/// `nuorpyts_has_tags`, which the header has inline: false where an element
/// surely has no tags.
#[inline]
pub fn has_tags(buffer: &[u8], element: &[u8]) -> bool {
    let view = &element[ELEMENT_VIEW..];
    let keys = match number(element, ELEMENT_KIND) as usize {
        ELEMENT_DENSE_NODE => {
            let start = number(view, DENSE_NODE_TAGS_START);
            let first = buffer.get(start as usize);
            return start != number(view, DENSE_NODE_TAGS_END) && first != Some(&0);
        }
        ELEMENT_NODE => NODE_KEYS,
        _ => WAY_KEYS,
    };
    number(view, keys + PART_PRESENT) != 0
}

/// The number at a place of an answer, a record or a state: 8 bytes, the
/// lowest first.
#[inline]
pub fn number(bytes: &[u8], place: usize) -> u64 {
    let mut number = [0; NUMBER_SIZE];
    number.copy_from_slice(&bytes[place..place + NUMBER_SIZE]);
    u64::from_le_bytes(number)
}
