//! The numbers that come back: the fourteen refusals of document 01's table,
//! each with a name. No refusal is 0.

/// The block is longer than `MAX_BLOCK` bytes.
pub const BLOCK_TOO_LONG: u8 = 1;
/// The bytes end inside a varint, or before one that is due.
pub const VARINT_CUT: u8 = 2;
/// Ten varint bytes with the top bit set.
pub const VARINT_TOO_LONG: u8 = 3;
/// A tag above 4,294,967,295, or field number 0.
pub const BAD_TAG: u8 = 4;
/// Wire type 6 or 7, or a group end that closes nothing or another field.
pub const BAD_WIRE_TYPE: u8 = 5;
/// A length or a fixed value passes the end, or the bytes end in a skipped group.
pub const PAST_END: u8 = 6;
/// The seventeenth skipped group is opened within sixteen.
pub const TOO_DEEP: u8 = 7;
/// Granularity or date granularity outside int32.
pub const BAD_GRANULARITY: u8 = 8;
/// A second non-empty occurrence of a column.
pub const SECOND_COLUMN: u8 = 9;
/// A second non-empty Info or DenseInfo.
pub const SECOND_INFO: u8 = 10;
/// A second dense field in a group.
pub const SECOND_DENSE: u8 = 11;
/// Columns of different counts.
pub const COUNTS_DIFFER: u8 = 12;
/// The buffer is too short for the tables.
pub const BUFFER_TOO_SHORT: u8 = 13;
/// A length, range, table or state outside the buffer, or a group number not
/// below the count.
pub const OUTSIDE: u8 = 14;

/// The longest block that is read.
pub const MAX_BLOCK: u64 = 33_554_432;
/// The number of skipped groups that may be open at once.
pub const MAX_OPEN_GROUPS: usize = 16;

/// A refusal is one of the numbers above.
pub type Refusal = u8;
