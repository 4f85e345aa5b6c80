//! The scan through C, and the strings and groups of a record.

use proved::ByRecord;

use super::faults::Faults;
use super::lent::Lent;
use super::record::{
    self, BLOCK, DATE_GRANULARITY, GRANULARITY, GROUP_TABLE, GROUPS, LAT_OFFSET, LON_OFFSET,
    Numbers, STRING_TABLE, STRINGS,
};
use super::shape::{RANGE, bytes as bytes_of};
use super::told::{Told, told};
use crate::question::{Places, scan_buffer};
use crate::text::Words;

/// The record and every byte behind the block.
pub fn scan(bytes: &[u8], len: u64, room: u64) -> String {
    let before = scan_buffer(bytes, room);
    let mut faults = Faults::default();
    let mut tails = Vec::new();
    let told = told(proved::RECORD_SIZE, |record| {
        let mut buffer = Lent::bytes(&before);
        let code = proved::scan(buffer.slice(), len as usize, record);
        let kept = if code == proved::OK {
            before.len().min(len as usize)
        } else {
            before.len()
        };
        let held = buffer.is_unchanged_but(kept..before.len());
        faults.unless(held, "the buffer changed where it must not");
        if code == proved::OK {
            tails.push(buffer.slice()[kept..].to_vec());
        }
        code
    });
    tails.dedup();
    faults.unless(tails.len() < 2, "the tables are not the same each time");
    faults.join(told.faults);
    let mut out = Words::new();
    out.put(told.code);
    if let Some(tail) = tails.first() {
        let record = record::numbers(&told.answer);
        faults.unless(record[BLOCK] == len, "another block length");
        put_record(&record, &mut out);
        out.bytes(tail);
    }
    faults.put(&mut out);
    out.done()
}

/// The block scanned through C in a buffer of the size that is always enough,
/// which is then cut behind the tables, and the record's numbers; or the
/// scan's refusal.
pub fn scanned(bytes: &[u8]) -> Result<(Vec<u8>, Numbers), u32> {
    let mut buffer = scan_buffer(bytes, (proved::BUFFER_TIMES * bytes.len()) as u64);
    let mut out = [0; proved::RECORD_SIZE];
    let code = proved::scan(&mut buffer, bytes.len(), &mut out);
    if code != proved::OK {
        return Err(code);
    }
    let record = record::numbers(&out);
    buffer.truncate(record::read(&record).end() as usize);
    Ok((buffer, record))
}

/// In the order of the other sides, which leave the block's length out.
fn put_record(record: &Numbers, out: &mut Words) {
    for signed in [GRANULARITY, DATE_GRANULARITY, LAT_OFFSET, LON_OFFSET] {
        out.put(record[signed] as i64);
    }
    for number in [STRING_TABLE, STRINGS, GROUP_TABLE, GROUPS] {
        out.put(record[number]);
    }
}

/// Start and length of what a record has at an index. Neither the other
/// numbers of the record nor bytes behind it matter; a slice that is too short
/// for a record or holds a granularity outside int32 is none: 14.
pub fn by_record(read: ByRecord, bytes: &[u8], places: Places, index: u64) -> String {
    let mut buffer = Lent::bytes(bytes);
    let mut ask = |record: &[u8]| with_record(read, &mut buffer, record, index as usize);
    let usual = record::at(places);
    let found = ask(&bytes_of(&usual));
    let longer = ask(&record::longer(&usual));
    let refused = record::none(&usual)
        .iter()
        .all(|record| is_refused(&ask(record)));
    let mut text = found.text(&RANGE, 0);
    if longer.text(&RANGE, 0) != text {
        text = format!("{text} but by a longer record {}", longer.text(&RANGE, 0));
    }
    if !refused {
        text.push_str(" but what is no record is not refused with 14");
    }
    text
}

fn is_refused(told: &Told) -> bool {
    told.code == proved::OUTSIDE && told.faults == Faults::default()
}

fn with_record(read: ByRecord, buffer: &mut Lent, record: &[u8], index: usize) -> Told {
    let mut record = Lent::bytes(record);
    let mut faults = Faults::default();
    let mut told = told(RANGE.size, |out| {
        let code = read(buffer.slice(), record.slice(), index, out);
        faults.unless(buffer.is_unchanged(), "the buffer changed");
        faults.unless(record.is_unchanged(), "the record changed");
        code
    });
    told.faults.join(faults);
    told
}
