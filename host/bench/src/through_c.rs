//! The proved library's side, through its C functions.

use reader::Record;

use crate::prepared::Prepared;
use crate::side::{BySimpleReader, Side};
use crate::timing::Pass;

/// The blocks, ready to be timed; an error where the reader's records and
/// tables are others.
pub fn prepared(
    blocks: &[Vec<u8>],
    by_reader: &Prepared<BySimpleReader>,
) -> Result<Option<Box<dyn Pass>>, String> {
    let through_c = Prepared::<ThroughC>::new(blocks)?;
    through_c.must_equal(by_reader)?;
    println!("library: {}", proved::ARCHIVE);
    Ok(Some(Box::new(through_c)))
}

struct ThroughC;

type Bytes = [u8; proved::RECORD_SIZE];

impl Side for ThroughC {
    type Record = Bytes;

    fn scan(buffer: &mut [u8], len: usize) -> Result<Bytes, u32> {
        let mut record = [0; proved::RECORD_SIZE];
        match proved::scan(buffer, len, &mut record) {
            proved::OK => Ok(record),
            refused => Err(refused),
        }
    }

    fn check(buffer: &mut [u8], record: &mut Bytes) -> u32 {
        proved::check(buffer, record)
    }

    fn read(record: &Bytes) -> Record {
        let number = |place| proved::number(record, place);
        Record {
            block_len: number(proved::RECORD_BLOCK),
            string_count: number(proved::RECORD_STRINGS),
            string_table: number(proved::RECORD_STRINGTABLE),
            group_count: number(proved::RECORD_GROUPS),
            group_table: number(proved::RECORD_GROUPTABLE),
            granularity: number(proved::RECORD_GRANULARITY) as i32,
            date_granularity: number(proved::RECORD_DATEGRANULARITY) as i32,
            lat_offset: number(proved::RECORD_LATOFFSET) as i64,
            lon_offset: number(proved::RECORD_LONOFFSET) as i64,
        }
    }
}
