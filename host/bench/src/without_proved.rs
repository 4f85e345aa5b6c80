//! Stands in for `through_c` where the proved library is not linked.

use crate::prepared::Prepared;
use crate::side::BySimpleReader;
use crate::timing::Pass;

pub fn prepared(
    _blocks: &[Vec<u8>],
    _by_reader: &Prepared<BySimpleReader>,
) -> Result<Option<Box<dyn Pass>>, String> {
    Ok(None)
}
