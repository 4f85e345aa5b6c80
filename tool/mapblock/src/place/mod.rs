//! Where a block is refused. The library's check says a number and no place;
//! the place is found by asking the library again, message by message and
//! column by column, in the order in which its check reads: the block's own
//! fields and the string table; then of each group its own fields, its dense
//! message, its nodes, its ways and its relations. The first part that the
//! library refuses is the place, and the number that it gives there is the
//! check's.

mod asking;
mod groups;
mod kinds;
mod scan;

use std::fmt;
use std::ops::Range;

use crate::block::Block;

/// Where a block is refused. All counts begin at 0, as the library's do.
#[derive(Clone, Debug)]
pub struct Place {
    /// The number that the library gives there.
    pub number: u32,
    pub group: Option<usize>,
    pub element: Option<Element>,
    /// What was being read, in words.
    pub what: String,
    /// Where that stands in the block.
    pub bytes: Range<usize>,
    /// The byte of the block at which it is certain that something is wrong.
    pub byte: usize,
}

#[derive(Clone, Debug)]
pub struct Element {
    pub kind: &'static str,
    /// Its number among those of its kind in the group.
    pub index: usize,
    /// Unknown where the element can't be read that far.
    pub id: Option<i64>,
}

impl Place {
    fn new(number: u32, what: &str, bytes: Range<usize>, byte: usize) -> Place {
        Place {
            number,
            group: None,
            element: None,
            what: what.to_string(),
            bytes,
            byte,
        }
    }
}

impl fmt::Display for Place {
    fn fmt(&self, f: &mut fmt::Formatter<'_>) -> fmt::Result {
        if let Some(group) = self.group {
            write!(f, "group {group}, ")?;
        }
        if let Some(Element { kind, index, id }) = &self.element {
            write!(f, "{kind} {index}")?;
            match id {
                Some(id) => write!(f, " (id {id}), ")?,
                None => write!(f, ", ")?,
            }
        }
        let Range { start, end } = self.bytes;
        write!(f, "{}: bytes {start} to {}", self.what, end.max(1) - 1)?;
        write!(f, " of the block, certain at byte {}", self.byte)
    }
}

/// Finds where a block is refused; none where it is accepted.
pub fn find(block: &mut Block) -> Option<Place> {
    match block.scanned() {
        Err(number) => Some(scan::find(block, number)),
        Ok(()) => groups::find(block),
    }
}
