//! Stands in for `by_c` where the proved library is not linked: it has no
//! answer to any question.

use reader::{Mode, Record};

use crate::by_reader::Opened;
use crate::question::Ask;
use crate::tried::Tried;

/// The library that is linked.
pub const ARCHIVE: Option<&str> = None;

pub fn answer(_ask: Ask, _bytes: &[u8]) -> Option<String> {
    None
}

pub fn walked(_buffer: &[u8], _record: &Record, _mode: Mode) -> Option<String> {
    None
}

pub fn same(_first: Opened, _second: Opened) -> Option<String> {
    None
}

pub fn same_around(_first: Opened, _second: Opened) -> Option<String> {
    None
}

pub fn forged(_bytes: &[u8], _seed: Option<u64>) -> Vec<Tried> {
    Vec::new()
}
