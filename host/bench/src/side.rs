//! What is timed of a side, and the simple reader's.

use reader::Record;

/// How a side scans and checks.
pub trait Side {
    /// What its scan hands to its check.
    type Record;

    /// Scans the first `len` bytes of the buffer; or the refusal's number.
    fn scan(buffer: &mut [u8], len: usize) -> Result<Self::Record, u32>;

    /// Checks a scanned buffer: the refusal's number, 0 where it is accepted.
    fn check(buffer: &mut [u8], record: &mut Self::Record) -> u32;

    /// The record as the simple reader has it.
    fn read(record: &Self::Record) -> Record;
}

/// The simple reader of this workspace.
pub struct BySimpleReader;

impl Side for BySimpleReader {
    type Record = Record;

    fn scan(buffer: &mut [u8], len: usize) -> Result<Record, u32> {
        reader::scan(buffer, len as u64).map_err(u32::from)
    }

    fn check(buffer: &mut [u8], record: &mut Record) -> u32 {
        reader::check(buffer, record).map_or_else(u32::from, |()| 0)
    }

    fn read(record: &Record) -> Record {
        *record
    }
}
