//! Where the scan refuses a block: in its own fields or in the string table
//! that counts, which is the last one.

use std::ops::Range;

use super::Place;
use super::asking::{certain_at, read_fields};
use crate::block::{Block, Messages};
use crate::text::counted;

/// Fields of a block by their numbers in osmformat.proto.
const STRING_TABLE: usize = 1;
const GROUP: usize = 2;

/// Where the scan gives this number.
pub fn find(block: &mut Block, number: u32) -> Place {
    let whole = 0..block.length();
    match number {
        proved::BLOCK_TOO_LONG => Place::new(number, "the block", whole, proved::BLOCK_LIMIT),
        proved::GRANULARITY => {
            let byte = certain_at(number, &whole, |front| block.scan_front(front.end));
            Place::new(number, "the block's own fields", whole, byte)
        }
        _ => match read_fields(block, &whole) {
            Err(number) => own_fields(block, number, whole),
            Ok(()) => string_table(block, number, &whole),
        },
    }
}

/// Fields of the block that can't be read: behind the last group before them.
fn own_fields(block: &mut Block, number: u32, whole: Range<usize>) -> Place {
    let mut groups = Messages::new(&whole, GROUP);
    let (mut count, mut end) = (0, 0);
    while let Some(group) = block.message(&mut groups) {
        (count, end) = (count + 1, group.end);
    }
    let what = format!("the block's own fields, behind {}", counted(count, "group"));
    let rest = end..whole.end;
    let byte = certain_at(number, &rest, |front| read_fields(block, front));
    Place::new(number, &what, rest, byte)
}

/// The last string table, which is all that is left to refuse.
fn string_table(block: &mut Block, number: u32, whole: &Range<usize>) -> Place {
    let mut tables = Messages::new(whole, STRING_TABLE);
    let mut table = 0..0;
    while let Some(found) = block.message(&mut tables) {
        table = found;
    }
    let byte = certain_at(number, &table, |front| read_fields(block, front));
    Place::new(number, "the string table", table, byte)
}
