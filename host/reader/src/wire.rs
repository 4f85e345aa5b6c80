//! The wire: varints, tags, payloads and the skipping of groups, from the
//! Protocol Buffers encoding text. Every reader takes the bytes up to the end
//! of its message and a place in them. A place equal to the length is the end
//! (2 where a varint is due), a place above it is 14.

use crate::number::{
    Refusal, BAD_TAG, BAD_WIRE_TYPE, MAX_OPEN_GROUPS, OUTSIDE, PAST_END, TOO_DEEP, VARINT_CUT,
    VARINT_TOO_LONG,
};

/// Wire type of a varint.
pub const VARINT: u8 = 0;
/// Wire type of eight bytes.
pub const FIXED64: u8 = 1;
/// Wire type of a length and that many bytes.
pub const LEN: u8 = 2;
/// Wire type that opens a group.
pub const GROUP_START: u8 = 3;
/// Wire type that closes a group.
pub const GROUP_END: u8 = 4;
/// Wire type of four bytes.
pub const FIXED32: u8 = 5;

/// A tag: field times 8 plus wire type.
#[derive(Clone, Copy, Debug, PartialEq, Eq)]
pub struct Tag {
    pub field: u32,
    pub wire: u8,
}

/// One field: its tag, the varint's value (0 for other wire types), and the
/// place of its raw bytes: the varint itself, or the bytes behind the length.
#[derive(Clone, Copy, Debug, PartialEq, Eq)]
pub struct Field {
    pub tag: Tag,
    pub value: u64,
    pub start: usize,
    pub len: usize,
}

/// A varint of 1 to 10 bytes, low seven bits first, modulo 2^64, and the place
/// behind it. Overlong spellings are legal, and of a tenth byte only the
/// lowest bit counts: the shift drops the others.
pub fn read_varint(bytes: &[u8], at: usize) -> Result<(u64, usize), Refusal> {
    if at > bytes.len() {
        return Err(OUTSIDE);
    }
    let mut value = 0u64;
    for (i, &byte) in bytes[at..].iter().take(10).enumerate() {
        value |= u64::from(byte & 0x7F) << (7 * i);
        if byte < 0x80 {
            return Ok((value, at + i + 1));
        }
    }
    Err(if bytes.len() - at >= 10 {
        VARINT_TOO_LONG
    } else {
        VARINT_CUT
    })
}

/// A tag and the place behind it. Its value is tested here (4), its wire type
/// only with the payload (5).
pub fn read_tag(bytes: &[u8], at: usize) -> Result<(Tag, usize), Refusal> {
    let (value, next) = read_varint(bytes, at)?;
    if value > u64::from(u32::MAX) || value < 8 {
        return Err(BAD_TAG);
    }
    let tag = Tag {
        field: (value >> 3) as u32,
        wire: (value & 7) as u8,
    };
    Ok((tag, next))
}

/// A varint length and that many bytes: their start, their length.
pub fn read_length_delimited(bytes: &[u8], at: usize) -> Result<(usize, usize), Refusal> {
    let (len, start) = read_varint(bytes, at)?;
    if len > (bytes.len() - start) as u64 {
        return Err(PAST_END);
    }
    Ok((start, len as usize))
}

/// The payload that belongs to `tag`, and the place behind it. Fields that a
/// view does not know go the same way, so reading and skipping refuse alike.
pub fn read_payload(bytes: &[u8], tag: Tag, at: usize) -> Result<(Field, usize), Refusal> {
    if at > bytes.len() {
        return Err(OUTSIDE);
    }
    let field = |value, start, len| Field {
        tag,
        value,
        start,
        len,
    };
    match tag.wire {
        VARINT => {
            let (value, next) = read_varint(bytes, at)?;
            Ok((field(value, at, next - at), next))
        }
        LEN => {
            let (start, len) = read_length_delimited(bytes, at)?;
            Ok((field(0, start, len), start + len))
        }
        FIXED64 => skip_fixed(bytes, at, 8).map(|next| (field(0, at, 8), next)),
        FIXED32 => skip_fixed(bytes, at, 4).map(|next| (field(0, at, 4), next)),
        GROUP_START => skip_group(bytes, tag.field, at).map(|next| (field(0, at, next - at), next)),
        _ => Err(BAD_WIRE_TYPE),
    }
}

/// Skips the payload that belongs to `tag`: the place behind it.
pub fn skip(bytes: &[u8], tag: Tag, at: usize) -> Result<usize, Refusal> {
    read_payload(bytes, tag, at).map(|(_, next)| next)
}

/// Skips the fixed value at `at`.
fn skip_fixed(bytes: &[u8], at: usize, width: usize) -> Result<usize, Refusal> {
    if bytes.len() - at < width {
        return Err(PAST_END);
    }
    Ok(at + width)
}

/// Skips a group whose opening tag has been read, up to behind its own end
/// tag. The open field numbers stand in a list, so that hostile nesting costs
/// no stack.
fn skip_group(bytes: &[u8], field: u32, at: usize) -> Result<usize, Refusal> {
    let mut open = vec![field];
    let mut at = at;
    while let Some(&innermost) = open.last() {
        if at == bytes.len() {
            return Err(PAST_END);
        }
        let (tag, next) = read_tag(bytes, at)?;
        at = next;
        match tag.wire {
            GROUP_START if open.len() == MAX_OPEN_GROUPS => return Err(TOO_DEEP),
            GROUP_START => open.push(tag.field),
            GROUP_END if tag.field != innermost => return Err(BAD_WIRE_TYPE),
            GROUP_END => {
                open.pop();
            }
            _ => at = skip(bytes, tag, at)?,
        }
    }
    Ok(at)
}

/// Visits the fields of the message `bytes[start..]` in order; the first
/// refusal, of the wire or of `visit`, stops it.
pub fn for_each_field(
    bytes: &[u8],
    start: usize,
    mut visit: impl FnMut(Field) -> Result<(), Refusal>,
) -> Result<(), Refusal> {
    let mut at = start;
    while at != bytes.len() {
        let (tag, payload) = read_tag(bytes, at)?;
        let (field, next) = read_payload(bytes, tag, payload)?;
        visit(field)?;
        at = next;
    }
    Ok(())
}
