//! Stands in for `by_published` where the published Rust is not built in.

use super::Sides;

pub fn side(_blocks: &[Vec<u8>]) -> Result<Sides, String> {
    Ok(Vec::new())
}
