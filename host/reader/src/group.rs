//! A PrimitiveGroup: the dense pass over all its fields, the iterator over the
//! messages of one kind, and the classification by the first byte.

use crate::answer::Answer;
use crate::number::{Refusal, OUTSIDE, SECOND_DENSE};
use crate::part::{range_end, Part};
use crate::wire::{read_payload, read_tag, Field, LEN};

/// PrimitiveGroup fields.
pub const NODE: u32 = 1;
pub const DENSE: u32 = 2;
pub const WAY: u32 = 3;
pub const RELATION: u32 = 4;

/// What a group's first byte says it holds.
#[derive(Clone, Copy, Debug, PartialEq, Eq)]
pub enum GroupType {
    Empty,
    Nodes,
    DenseNodes,
    Ways,
    Relations,
    Mixed,
}

/// Reads all fields of the group and finds its dense message, empty or not. A
/// second one is told by its tag alone: 11 comes before its payload is read.
pub fn dense_pass(buffer: &[u8], start: usize, len: usize) -> Result<Part, Refusal> {
    let end = range_end(buffer.len(), start, len)?;
    let bytes = &buffer[..end];
    let mut dense = Part::ABSENT;
    let mut at = start;
    while at != end {
        let (tag, payload) = read_tag(bytes, at)?;
        let is_dense = (tag.field, tag.wire) == (DENSE, LEN);
        if is_dense && dense.present {
            return Err(SECOND_DENSE);
        }
        let (field, next) = read_payload(bytes, tag, payload)?;
        if is_dense {
            dense = Part::at(field.start, field.len);
        }
        at = next;
    }
    Ok(dense)
}

/// Iterates over the messages of one field in a group (`WireMessageIter`).
#[derive(Clone, Copy, Debug, PartialEq, Eq)]
pub enum Messages {
    Ended,
    At { field: u32, at: usize, end: usize },
}

impl Messages {
    /// At the start of the range; a range that wraps is outside any buffer.
    pub fn new(field: u32, start: usize, len: usize) -> Messages {
        match start.checked_add(len) {
            Some(end) => Messages::At {
                field,
                at: start,
                end,
            },
            None => Messages::At {
                field,
                at: usize::MAX,
                end: 0,
            },
        }
    }

    /// Whether the iterator's range lies inside the buffer.
    pub fn is_inside(&self, buffer: &[u8]) -> bool {
        match self {
            Messages::Ended => true,
            Messages::At { at, end, .. } => at <= end && *end <= buffer.len(),
        }
    }
}

/// The next message of the iterator's field. It ends quietly at a wire error
/// and then stays ended; 14 where the state is outside.
pub fn messages_step(buffer: &[u8], messages: Messages) -> (Answer<Part>, Messages) {
    let Messages::At { field, mut at, end } = messages else {
        return (Answer::Ended, Messages::Ended);
    };
    if !messages.is_inside(buffer) {
        return (Answer::Refused(OUTSIDE), Messages::Ended);
    }
    while at != end {
        let Ok((found, next)) = next_field(&buffer[..end], at) else {
            break;
        };
        at = next;
        if (found.tag.field, found.tag.wire) == (field, LEN) {
            let message = Part::at(found.start, found.len);
            return (Answer::Item(message), Messages::At { field, at, end });
        }
    }
    (Answer::Ended, Messages::Ended)
}

fn next_field(bytes: &[u8], at: usize) -> Result<(Field, usize), Refusal> {
    let (tag, payload) = read_tag(bytes, at)?;
    read_payload(bytes, tag, payload)
}

/// Looks at the first byte only.
pub fn classify_group(group: &[u8]) -> GroupType {
    let Some(&first) = group.first() else {
        return GroupType::Empty;
    };
    if first & 7 != LEN {
        return GroupType::Mixed;
    }
    match u32::from(first / 8) {
        NODE => GroupType::Nodes,
        DENSE => GroupType::DenseNodes,
        WAY => GroupType::Ways,
        RELATION => GroupType::Relations,
        _ => GroupType::Mixed,
    }
}
