//! The check through C by group tables that no scan wrote. A range that passes
//! the buffer is refused with 14 before any group is read, wherever it stands;
//! of other ranges the bytes are read as groups in the table's order, which is
//! what the simple reader does too.

use super::check::Checked;
use super::record::{self, BLOCK, ENTRY, GROUP_TABLE, GROUPS, Numbers};
use super::shape::bytes as bytes_of;
use crate::text::Words;

/// Start and length of a group.
type Range = (u32, u32);

/// A group that is refused at its first byte, with 4.
const REFUSED: [u8; 1] = [0x07];
/// Bytes of a table that stands behind the scanned one, besides those of as
/// many entries: two entries, and a few that are in no table.
const MORE: usize = 2 * ENTRY as usize + 3;

/// Tells at the end of an answer what went wrong.
pub fn put(buffer: &[u8], numbers: &Numbers, out: &mut Words) {
    let ranges = ranges_in(&buffer[numbers[GROUP_TABLE] as usize..]);
    let mut scanned = Tables::new(buffer, numbers);
    scanned.with_one_changed(&ranges, out);
    scanned.lent.faults.put(out);
    let mut behind = Tables::behind(buffer, numbers);
    behind.with_one_more(&ranges, buffer.len() as u32, out);
    behind.with_all_changed(&ranges, out);
    behind.lent.faults.put(out);
}

/// A lent buffer with room for group tables at the place that a record names.
struct Tables {
    lent: Checked,
    numbers: Numbers,
}

impl Tables {
    /// In place of the table that the scan wrote.
    fn new(buffer: &[u8], numbers: &Numbers) -> Tables {
        Tables {
            lent: Checked::new(buffer),
            numbers: *numbers,
        }
    }

    /// Behind the scanned buffer and a refused group, so at another place and
    /// in a longer buffer.
    fn behind(buffer: &[u8], numbers: &Numbers) -> Tables {
        let place = buffer.len() + REFUSED.len();
        let size = (ENTRY * numbers[GROUPS]) as usize + MORE;
        let room = vec![0x5a; size];
        Tables::new(
            &[buffer, &REFUSED, &room].concat(),
            &record::with(numbers, &[(GROUP_TABLE, place as u64)]),
        )
    }

    fn len(&mut self) -> u32 {
        self.lent.bytes().len() as u32
    }

    /// Writes a table; its record, and the check's code by it.
    fn ask(&mut self, ranges: &[Range]) -> (Numbers, u32) {
        let entries = ranges.iter().flat_map(|&(start, len)| [start, len]);
        let bytes: Vec<u8> = entries.flat_map(u32::to_le_bytes).collect();
        self.lent.set(self.numbers[GROUP_TABLE] as usize, &bytes);
        let record = record::with(&self.numbers, &[(GROUPS, ranges.len() as u64)]);
        let code = self.lent.code(&bytes_of(&record));
        (record, code)
    }

    /// A table with a range that passes the buffer.
    fn refuses(&mut self, ranges: &[Range]) {
        let refused = self.ask(ranges).1 == proved::OUTSIDE;
        let what = "a table with a range outside is not refused with 14";
        self.lent.unless(refused, what);
    }

    /// A table of ranges inside the buffer.
    fn reads(&mut self, ranges: &[Range], out: &mut Words) {
        let (record, code) = self.ask(ranges);
        let expected = reader::check(self.lent.bytes(), &record::read(&record));
        let expected = u32::from(expected.err().unwrap_or(0));
        if code != expected {
            out.put("but by the table").put(format!("{ranges:?}"));
            out.put(code).put("and not").put(expected);
        }
    }

    /// The first or the last range is another one: outside, the whole buffer,
    /// the block, and none of the bytes at the buffer's end.
    fn with_one_changed(&mut self, ranges: &[Range], out: &mut Words) {
        let len = self.len();
        let mut places = vec![0, ranges.len().saturating_sub(1)];
        places.dedup();
        for at in places.into_iter().filter(|&at| at < ranges.len()) {
            let mut changed = ranges.to_vec();
            for range in outside(len) {
                changed[at] = range;
                self.refuses(&changed);
            }
            for range in [(0, len), (0, self.numbers[BLOCK] as u32), (len, 0)] {
                changed[at] = range;
                self.reads(&changed, out);
            }
        }
    }

    /// A group more that is refused, in front and at the end; and behind it
    /// and all others a range outside, which comes first.
    fn with_one_more(&mut self, ranges: &[Range], place: u32, out: &mut Words) {
        let more = [(place, REFUSED.len() as u32)];
        self.reads(&[&more, ranges].concat(), out);
        self.reads(&[ranges, &more].concat(), out);
        for range in outside(self.len()) {
            self.refuses(&[&more, ranges, &[range]].concat());
        }
    }

    /// All ranges: as they were, backwards, and one byte shorter from either
    /// side.
    fn with_all_changed(&mut self, ranges: &[Range], out: &mut Words) {
        let backwards: Vec<Range> = ranges.iter().copied().rev().collect();
        let each = |change: fn(Range) -> Range| -> Vec<Range> {
            ranges.iter().copied().map(change).collect()
        };
        let later = each(|(start, len)| (start + 1, len.saturating_sub(1)));
        let shorter = each(|(start, len)| (start, len.saturating_sub(1)));
        for changed in [ranges, &backwards, &later, &shorter] {
            self.reads(changed, out);
        }
    }
}

/// Ranges that pass a buffer of this length by one, that begin behind it, and
/// whose end is inside at 32 bits.
fn outside(len: u32) -> [Range; 7] {
    [
        (0, len + 1),
        (1, len),
        (len, 1),
        (len + 1, 0),
        (u32::MAX, 0),
        (u32::MAX, 1),
        (1, u32::MAX),
    ]
}

/// The ranges in the bytes of a table.
fn ranges_in(table: &[u8]) -> Vec<Range> {
    let number = |bytes: &[u8]| bytes.iter().rev().fold(0, |n, &b| n << 8 | u32::from(b));
    table
        .chunks_exact(ENTRY as usize)
        .map(|entry| entry.split_at(proved::ENTRY_LENGTH))
        .map(|(start, len)| (number(start), number(len)))
        .collect()
}
