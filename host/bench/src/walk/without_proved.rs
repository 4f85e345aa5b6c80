//! Stands in for `through_c` where the proved library is not linked.

use super::Sides;

pub fn sides(_blocks: &[Vec<u8>]) -> Result<Sides, String> {
    Ok(Vec::new())
}
