//! The simple reader's scan, and what reads the tables behind a block.

use reader::{Got, GroupType, Record};

use super::views::view;
use crate::question::{Places, scan_buffer};
use crate::text::Words;

/// The record and every byte behind the block; a byte that must not change and
/// did is told too.
pub fn scan(bytes: &[u8], len: u64, room: u64) -> String {
    let before = scan_buffer(bytes, room);
    let mut buffer = before.clone();
    let answer = reader::scan(&mut buffer, len);
    let kept = if answer.is_ok() {
        len as usize
    } else {
        buffer.len()
    };
    let changed = before[..kept] != buffer[..kept];
    let text = view(answer, |r, out| {
        out.put(r.granularity)
            .put(r.date_granularity)
            .put(r.lat_offset)
            .put(r.lon_offset)
            .put(r.string_table)
            .put(r.string_count)
            .put(r.group_table)
            .put(r.group_count)
            .bytes(&buffer[kept..]);
    });
    if changed {
        format!("{text} changed")
    } else {
        text
    }
}

/// The place of a string.
pub fn get(bytes: &[u8], place: u64, count: u64, index: u64) -> String {
    let record = record_of(Places {
        block_len: 0,
        string_table: place,
        string_count: count,
        group_table: 0,
        group_count: 0,
    });
    let mut out = Words::new();
    match reader::get(bytes, &record, index) {
        Got::Text(start, len) => out.put(0).put(start).put(len),
        Got::None => out.put('~'),
        Got::Refused(number) => out.put(number),
    };
    out.done()
}

/// The place of a group.
pub fn group(bytes: &[u8], record: Places, index: u64) -> String {
    let found = reader::group(bytes, &record_of(record), index);
    view(found, |(start, len), out| {
        out.put(start).put(len);
    })
}

fn record_of(places: Places) -> Record {
    Record {
        block_len: places.block_len,
        string_count: places.string_count,
        string_table: places.string_table,
        group_count: places.group_count,
        group_table: places.group_table,
        granularity: 100,
        date_granularity: 1000,
        lat_offset: 0,
        lon_offset: 0,
    }
}

/// The number of a group's kind in the fixed list.
pub fn classify(bytes: &[u8]) -> u8 {
    match reader::classify_group(bytes) {
        GroupType::Empty => 0,
        GroupType::Nodes => 1,
        GroupType::DenseNodes => 2,
        GroupType::Ways => 3,
        GroupType::Relations => 4,
        GroupType::Mixed => 5,
    }
}
