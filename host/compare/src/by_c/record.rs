//! The nine numbers of a record, in the order of their bytes; slices that hold
//! none, and records that pass their buffer.

use super::shape::{NUMBER, bytes};
use crate::question::Places;

/// How many numbers a record has.
const RECORD: usize = proved::RECORD_SIZE / NUMBER;
pub type Numbers = [u64; RECORD];
/// The numbers of no record in particular.
pub const NONE: Numbers = [0; RECORD];

/// Which of them is which.
pub const BLOCK: usize = proved::RECORD_BLOCK / NUMBER;
pub const STRINGS: usize = proved::RECORD_STRINGS / NUMBER;
pub const STRING_TABLE: usize = proved::RECORD_STRINGTABLE / NUMBER;
pub const GROUPS: usize = proved::RECORD_GROUPS / NUMBER;
pub const GROUP_TABLE: usize = proved::RECORD_GROUPTABLE / NUMBER;
pub const GRANULARITY: usize = proved::RECORD_GRANULARITY / NUMBER;
pub const DATE_GRANULARITY: usize = proved::RECORD_DATEGRANULARITY / NUMBER;
pub const LAT_OFFSET: usize = proved::RECORD_LATOFFSET / NUMBER;
pub const LON_OFFSET: usize = proved::RECORD_LONOFFSET / NUMBER;

/// The bytes of a table entry.
pub const ENTRY: u64 = proved::ENTRY_SIZE as u64;

/// The record of some places; its scalars are the defaults of a block.
pub fn at(places: Places) -> Numbers {
    let set = [
        (BLOCK, places.block_len),
        (STRINGS, places.string_count),
        (STRING_TABLE, places.string_table),
        (GROUPS, places.group_count),
        (GROUP_TABLE, places.group_table),
        (GRANULARITY, 100),
        (DATE_GRANULARITY, 1000),
    ];
    with(&NONE, &set)
}

/// The numbers in a record's bytes.
pub fn numbers(record: &[u8]) -> Numbers {
    std::array::from_fn(|at| proved::number(record, at * NUMBER))
}

/// The record with some numbers changed.
pub fn with(numbers: &Numbers, changed: &[(usize, u64)]) -> Numbers {
    let mut numbers = *numbers;
    for &(at, value) in changed {
        numbers[at] = value;
    }
    numbers
}

/// The record as the simple reader has it.
pub fn read(numbers: &Numbers) -> reader::Record {
    reader::Record {
        block_len: numbers[BLOCK],
        string_count: numbers[STRINGS],
        string_table: numbers[STRING_TABLE],
        group_count: numbers[GROUPS],
        group_table: numbers[GROUP_TABLE],
        granularity: numbers[GRANULARITY] as i32,
        date_granularity: numbers[DATE_GRANULARITY] as i32,
        lat_offset: numbers[LAT_OFFSET] as i64,
        lon_offset: numbers[LON_OFFSET] as i64,
    }
}

/// The record's numbers, from the simple reader's.
pub fn of(record: &reader::Record) -> Numbers {
    let set = [
        (BLOCK, record.block_len),
        (STRINGS, record.string_count),
        (STRING_TABLE, record.string_table),
        (GROUPS, record.group_count),
        (GROUP_TABLE, record.group_table),
        (GRANULARITY, i64::from(record.granularity) as u64),
        (DATE_GRANULARITY, i64::from(record.date_granularity) as u64),
        (LAT_OFFSET, record.lat_offset as u64),
        (LON_OFFSET, record.lon_offset as u64),
    ];
    with(&NONE, &set)
}

/// A slice that is longer than the record, whose scalars are at the ends of
/// their ranges. No question about strings and groups looks at either.
pub fn longer(numbers: &Numbers) -> Vec<u8> {
    let ends = [
        (GRANULARITY, i64::from(i32::MIN) as u64),
        (DATE_GRANULARITY, i32::MAX as u64),
        (LAT_OFFSET, i64::MIN as u64),
        (LON_OFFSET, u64::MAX),
    ];
    [bytes(&with(numbers, &ends)), vec![0x5a; 3]].concat()
}

/// What is no record: no bytes, one byte too few, and granularities on both
/// sides of int32.
pub fn none(numbers: &Numbers) -> [Vec<u8>; 6] {
    let one = |at: usize, value: i64| bytes(&with(numbers, &[(at, value as u64)]));
    let mut short = bytes(numbers);
    short.pop();
    [
        Vec::new(),
        short,
        one(GRANULARITY, i64::from(i32::MAX) + 1),
        one(GRANULARITY, i64::from(i32::MIN) - 1),
        one(DATE_GRANULARITY, i64::from(u32::MAX)),
        one(DATE_GRANULARITY, i64::MIN),
    ]
}

/// Records that pass a buffer of `len` bytes, which holds the given one: the
/// block or one of the tables, by one byte and by as many as there are, also
/// where sums and products of 64 bits would come out inside.
pub fn outside(numbers: &Numbers, len: u64) -> Vec<Numbers> {
    let mut found = vec![
        with(numbers, &[(BLOCK, len + 1)]),
        with(numbers, &[(BLOCK, u64::MAX)]),
    ];
    for (count, place) in [(STRINGS, STRING_TABLE), (GROUPS, GROUP_TABLE)] {
        let size = ENTRY * numbers[count];
        for value in [len + 1 - size, u64::MAX, size.max(1).wrapping_neg()] {
            found.push(with(numbers, &[(place, value)]));
        }
        let too_many = (len - numbers[place]) / ENTRY + 1;
        // Eight times as many are 0 at 64 bits.
        let none_at_64_bits = 1 << 61;
        for value in [too_many, u64::MAX, none_at_64_bits + numbers[count]] {
            found.push(with(numbers, &[(count, value)]));
        }
        found.push(with(numbers, &[(place, u64::MAX), (count, u64::MAX)]));
        found.push(with(numbers, &[(place, 8u64.wrapping_neg()), (count, 1)]));
    }
    found
}
