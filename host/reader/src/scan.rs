//! The scan of a PrimitiveBlock: its record, and the string and group tables
//! that it writes behind the block. Then what reads those tables: `get`,
//! `group` and the role text. A refused scan writes nothing.

use crate::column::int64;
use crate::number::{
    Refusal, BAD_GRANULARITY, BLOCK_TOO_LONG, BUFFER_TOO_SHORT, MAX_BLOCK, OUTSIDE,
};
use crate::part::Part;
use crate::wire::{for_each_field, Field, LEN, VARINT};

/// PrimitiveBlock and StringTable fields.
const STRING_TABLE: u32 = 1;
const GROUP: u32 = 2;
const GRANULARITY: u32 = 17;
const DATE_GRANULARITY: u32 = 18;
const LAT_OFFSET: u32 = 19;
const LON_OFFSET: u32 = 20;
const STRING: u32 = 1;

/// A table entry is offset and length, 4 little-endian bytes each.
const ENTRY: u64 = 8;

/// What the scan learned of a block. Places are counted from the buffer's start.
#[derive(Clone, Copy, Debug, PartialEq, Eq)]
pub struct Record {
    pub block_len: u64,
    pub string_count: u64,
    pub string_table: u64,
    pub group_count: u64,
    pub group_table: u64,
    pub granularity: i32,
    pub date_granularity: i32,
    pub lat_offset: i64,
    pub lon_offset: i64,
}

/// What `get` answers.
#[derive(Clone, Copy, Debug, PartialEq, Eq)]
pub enum Got {
    /// Start and length of the string.
    Text(usize, usize),
    /// There is no such string.
    None,
    /// The entry's range passes the buffer (14).
    Refused(Refusal),
}

/// The top-level fields of a block, as its bytes give them.
#[derive(Clone, Copy, Debug, PartialEq, Eq)]
pub struct BlockFields {
    pub string_table: Part,
    pub group_count: u64,
    pub granularity: i32,
    pub date_granularity: i32,
    pub lat_offset: i64,
    pub lon_offset: i64,
}

/// In a buffer of so many bytes a block's tables always have room behind it:
/// the shortest string and the shortest group take 2 bytes of the block each,
/// and 8 of a table.
pub fn always_enough(block_len: u64) -> u64 {
    block_len + ENTRY * (block_len / 2)
}

impl Record {
    /// Where the tables of a scanned block end.
    pub fn end(&self) -> u64 {
        self.group_table + ENTRY * self.group_count
    }

    /// A record is inside where its block and both tables are.
    pub fn is_inside(&self, buffer: &[u8]) -> bool {
        let len = buffer.len() as u128;
        let table_end =
            |place: u64, count: u64| u128::from(place) + u128::from(ENTRY) * u128::from(count);
        u128::from(self.block_len) <= len
            && table_end(self.string_table, self.string_count) <= len
            && table_end(self.group_table, self.group_count) <= len
    }
}

/// Scans the first `block_len` bytes and writes the tables behind them. Tests
/// in this order: 14, 1, all top-level fields, the chosen string table, 13.
pub fn scan(buffer: &mut [u8], block_len: u64) -> Result<Record, Refusal> {
    if block_len > buffer.len() as u64 {
        return Err(OUTSIDE);
    }
    if block_len > MAX_BLOCK {
        return Err(BLOCK_TOO_LONG);
    }
    let (block, tail) = buffer.split_at_mut(block_len as usize);
    let fields = block_fields(block)?;
    let string_count = count_strings(block, fields.string_table)?;
    if ENTRY * (string_count + fields.group_count) > tail.len() as u64 {
        return Err(BUFFER_TOO_SHORT);
    }
    write_tables(block, fields.string_table, tail)?;
    Ok(Record {
        block_len,
        string_count,
        string_table: block_len,
        group_count: fields.group_count,
        group_table: block_len + ENTRY * string_count,
        granularity: fields.granularity,
        date_granularity: fields.date_granularity,
        lat_offset: fields.lat_offset,
        lon_offset: fields.lon_offset,
    })
}

/// The top-level fields: scalars and the string table by the last one, groups
/// counted.
pub fn block_fields(block: &[u8]) -> Result<BlockFields, Refusal> {
    let mut found = BlockFields {
        string_table: Part::ABSENT,
        group_count: 0,
        granularity: 100,
        date_granularity: 1000,
        lat_offset: 0,
        lon_offset: 0,
    };
    for_each_field(block, 0, |f| {
        match (f.tag.field, f.tag.wire) {
            (STRING_TABLE, LEN) => found.string_table = Part::at(f.start, f.len),
            (GROUP, LEN) => found.group_count += 1,
            (GRANULARITY, VARINT) => found.granularity = granularity(f.value)?,
            (DATE_GRANULARITY, VARINT) => found.date_granularity = granularity(f.value)?,
            (LAT_OFFSET, VARINT) => found.lat_offset = int64(f.value),
            (LON_OFFSET, VARINT) => found.lon_offset = int64(f.value),
            _ => {}
        }
        Ok(())
    })?;
    Ok(found)
}

/// A granularity is refused rather than cut where it is outside int32.
fn granularity(raw: u64) -> Result<i32, Refusal> {
    i32::try_from(int64(raw)).map_err(|_| BAD_GRANULARITY)
}

/// Visits the strings of the chosen table in order.
pub fn for_each_string(
    block: &[u8],
    table: Part,
    mut visit: impl FnMut(Field),
) -> Result<(), Refusal> {
    for_each_field(&block[..table.end()], table.start, |f| {
        if (f.tag.field, f.tag.wire) == (STRING, LEN) {
            visit(f);
        }
        Ok(())
    })
}

/// Visits the groups of a block in order.
pub fn for_each_group(block: &[u8], mut visit: impl FnMut(Field)) -> Result<(), Refusal> {
    for_each_field(block, 0, |f| {
        if (f.tag.field, f.tag.wire) == (GROUP, LEN) {
            visit(f);
        }
        Ok(())
    })
}

fn count_strings(block: &[u8], table: Part) -> Result<u64, Refusal> {
    let mut count = 0;
    for_each_string(block, table, |_| count += 1)?;
    Ok(count)
}

/// Writes an entry per string, then one per group. Both passes have read the
/// same bytes before without a refusal, and the room has been tested.
fn write_tables(block: &[u8], table: Part, tail: &mut [u8]) -> Result<(), Refusal> {
    let mut entries = tail.chunks_exact_mut(ENTRY as usize);
    let mut write = |f: Field| {
        if let Some(entry) = entries.next() {
            entry[..4].copy_from_slice(&(f.start as u32).to_le_bytes());
            entry[4..].copy_from_slice(&(f.len as u32).to_le_bytes());
        }
    };
    for_each_string(block, table, &mut write)?;
    for_each_group(block, &mut write)
}

/// The string at `index`. Reads only string count and table place of the
/// record: none exactly where the index is not below the count or its 8 table
/// bytes pass the buffer, 14 where the entry's range does.
pub fn get(buffer: &[u8], record: &Record, index: u64) -> Got {
    if index >= record.string_count {
        return Got::None;
    }
    match entry(buffer, record.string_table, index) {
        None => Got::None,
        Some((start, len)) if start + len > buffer.len() => Got::Refused(OUTSIDE),
        Some((start, len)) => Got::Text(start, len),
    }
}

/// The range of the group at `index`: 14 where the record or the entry's range
/// is outside, or the index is not below the count.
pub fn group(buffer: &[u8], record: &Record, index: u64) -> Result<(usize, usize), Refusal> {
    if !record.is_inside(buffer) || index >= record.group_count {
        return Err(OUTSIDE);
    }
    match entry(buffer, record.group_table, index) {
        Some((start, len)) if start + len <= buffer.len() => Ok((start, len)),
        _ => Err(OUTSIDE),
    }
}

/// The text of a role: `get` at its number, a negative one being none.
pub fn role_text(buffer: &[u8], record: &Record, role: i32) -> Got {
    match u64::try_from(role) {
        Ok(index) => get(buffer, record, index),
        Err(_) => Got::None,
    }
}

/// A table entry, or none where its 8 bytes pass the buffer. Offset and length
/// have 32 bits each, so their sum does not wrap.
fn entry(buffer: &[u8], table: u64, index: u64) -> Option<(usize, usize)> {
    let at = u128::from(table) + u128::from(ENTRY) * u128::from(index);
    let end = at + u128::from(ENTRY);
    if end > buffer.len() as u128 {
        return None;
    }
    let bytes = &buffer[at as usize..end as usize];
    Some((le32(&bytes[..4]), le32(&bytes[4..])))
}

fn le32(bytes: &[u8]) -> usize {
    bytes.iter().rev().fold(0, |n, &b| n << 8 | usize::from(b))
}
