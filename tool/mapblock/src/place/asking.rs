//! What is asked of the library about any message and any column.

use std::ops::Range;

use crate::block::{Block, Refs};

/// Whether the fields of any message can be read. Info has scalars alone, so
/// its view refuses what every message is refused for, and nothing else.
pub fn read_fields(block: &mut Block, range: &Range<usize>) -> Result<(), u32> {
    let read = block.view::<{ proved::INFO_SIZE }>(proved::info, range);
    read.map(|_| ())
}

/// How many values any column has.
pub fn count(block: &mut Block, column: &Range<usize>) -> Result<usize, u32> {
    let mut refs = Refs::over(column);
    let mut count = 0;
    loop {
        match block.references(&mut refs) {
            Ok(found) => count += found.len(),
            Err(proved::ENDED) => return Ok(count),
            Err(number) => return Err(number),
        }
    }
}

/// The byte at which a number is certain: of a shorter front of the range the
/// library refuses nothing or says that it is cut; with that byte it gives the
/// number, whatever comes behind. That it is cut is certain at the last byte.
pub fn certain_at<T>(
    number: u32,
    range: &Range<usize>,
    mut ask: impl FnMut(&Range<usize>) -> Result<T, u32>,
) -> usize {
    let last = range.end.saturating_sub(1);
    if matches!(number, proved::VARINT_CUT | proved::PAST_END) {
        return last;
    }
    let (mut before, mut at) = (range.start, last);
    while before < at {
        let middle = before + (at - before) / 2;
        if ask(&(range.start..middle + 1)).err() == Some(number) {
            at = middle;
        } else {
            before = middle + 1;
        }
    }
    at
}
