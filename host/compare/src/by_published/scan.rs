//! The published scan and tables.

use published::read::block::{BlockType, classify_group};
use published::read::wire::{WireBlock, WireBlockMeta, WireStringTable};
use published::{Opened, caught};

use super::views::place;
use crate::question::{FILLER, Places};
use crate::text::Words;

/// A block longer than this is not asked of the Rust, which has no limit.
const LIMIT: u64 = 33_554_432;

/// The record and every byte behind the block, as if the tables had been
/// written into a buffer of this room.
pub fn scan(bytes: &[u8], len: u64, room: u64) -> Option<String> {
    if len > room || len > LIMIT || len > bytes.len() as u64 {
        return None;
    }
    let opened = match Opened::scan(&bytes[..len as usize]) {
        Ok(opened) => opened,
        Err(why) => return Some(why.to_string()),
    };
    let mut tail = opened.bytes()[len as usize..].to_vec();
    let room_behind = (room - len) as usize;
    if tail.len() > room_behind {
        return None;
    }
    // What stood behind the block stays, but for the tables.
    let behind = bytes[len as usize..]
        .iter()
        .copied()
        .chain(std::iter::repeat(FILLER));
    tail.extend(behind.take(room_behind).skip(tail.len()));
    let mut out = Words::new();
    let meta = opened.meta();
    out.put(0)
        .put(meta.granularity)
        .put(meta.date_granularity)
        .put(meta.lat_offset)
        .put(meta.lon_offset)
        .put(meta.st_inline_offset)
        .put(meta.st_inline_count)
        .put(meta.gr_inline_offset)
        .put(meta.gr_inline_count)
        .bytes(&tail);
    Some(out.done())
}

/// The place of a string.
pub fn get(bytes: &[u8], at: u64, count: u64, index: u64) -> Option<String> {
    let (at, count) = (u32::try_from(at).ok()?, u32::try_from(count).ok()?);
    let table = WireStringTable::new(bytes, at, count);
    let string = caught(|| table.get(index as usize)).ok()?;
    let mut out = Words::new();
    match string {
        Some(part) => {
            let (start, len) = place(bytes, part);
            out.put(0).put(start).put(len)
        }
        None => out.put('~'),
    };
    Some(out.done())
}

/// The place of a group.
pub fn group(bytes: &[u8], record: Places, index: u64) -> Option<String> {
    // The Rust tests neither the record nor the index: both are ours (14).
    if index >= record.group_count || !is_inside(record, bytes) {
        return None;
    }
    let narrow = |value| u32::try_from(value).ok();
    let meta = WireBlockMeta {
        proto_len: narrow(record.block_len)?,
        st_inline_offset: narrow(record.string_table)?,
        st_inline_count: narrow(record.string_count)?,
        gr_inline_offset: narrow(record.group_table)?,
        gr_inline_count: narrow(record.group_count)?,
        granularity: 100,
        lat_offset: 0,
        lon_offset: 0,
        date_granularity: 1000,
    };
    let block = WireBlock::from_inline(bytes, &meta);
    let part = caught(|| block.group(index as usize)).ok()?;
    let (start, len) = place(bytes, part);
    let mut out = Words::new();
    out.put(0).put(start).put(len);
    Some(out.done())
}

/// Whether the block and both tables are inside the buffer.
fn is_inside(record: Places, buffer: &[u8]) -> bool {
    let len = buffer.len() as u128;
    let ends = |place: u64, count: u64| u128::from(place) + 8 * u128::from(count) <= len;
    u128::from(record.block_len) <= len
        && ends(record.string_table, record.string_count)
        && ends(record.group_table, record.group_count)
}

/// The number of a group's kind in the fixed list.
pub fn classify(bytes: &[u8]) -> u8 {
    match classify_group(bytes) {
        BlockType::Empty => 0,
        BlockType::Nodes => 1,
        BlockType::DenseNodes => 2,
        BlockType::Ways => 3,
        BlockType::Relations => 4,
        BlockType::Mixed => 5,
    }
}
