//! Stands in for `by_published` where the published Rust is not built in: it
//! has no answer to any question.

use crate::question::Ask;

/// The commit of the published Rust.
pub const COMMIT: Option<&str> = None;

pub fn answer(_ask: Ask, _bytes: &[u8]) -> Option<String> {
    None
}

pub fn goes_on_after_its_end(_bytes: &[u8], _field: u32) -> bool {
    false
}

pub fn validate_groups(_bytes: &[u8]) -> Option<Result<(), String>> {
    None
}

pub fn composed_check(_bytes: &[u8]) -> Option<String> {
    None
}
