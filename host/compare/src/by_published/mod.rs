//! The published Rust's answers. None where it has no answer of its own: the
//! leaf, whose Rust is not published, the limits (1), the room behind the
//! block (13), what lies outside (14), and the check, which is added.

mod composed;
mod scan;
mod views;
mod walk;

use published::Opened;
use published::read::wire::WireMessageIter;

use crate::question::Ask;

/// The commit of the published Rust.
pub const COMMIT: Option<&str> = Some(published::COMMIT);

/// The answer in words.
pub fn answer(ask: Ask, bytes: &[u8]) -> Option<String> {
    match ask {
        Ask::Varint { .. } | Ask::Field { .. } | Ask::Column | Ask::Check => None,
        Ask::Scan { len, room } => scan::scan(bytes, len, room),
        Ask::Get {
            place,
            count,
            index,
        } => scan::get(bytes, place, count, index),
        Ask::Group { record, index } => scan::group(bytes, record, index),
        Ask::Classify => Some(scan::classify(bytes).to_string()),
        Ask::Node => Some(views::node(bytes)),
        Ask::Way => Some(views::way(bytes)),
        Ask::Relation => Some(views::relation(bytes)),
        Ask::Dense => Some(views::dense(bytes)),
        Ask::DenseInfo => Some(views::dense_info(bytes)),
        Ask::Info => Some(views::info(bytes)),
        Ask::DensePass => Some(views::dense_pass(bytes)),
        Ask::Messages { field } => Some(views::messages(bytes, field)),
        Ask::Plain => Some(walk::walk(bytes, false)),
        Ask::Full => Some(walk::walk(bytes, true)),
    }
}

/// Whether the message iterator, asked again after its first none, goes on.
pub fn goes_on_after_its_end(bytes: &[u8], field: u32) -> bool {
    let mut iter = WireMessageIter::new(bytes, field);
    iter.by_ref().for_each(drop);
    iter.next().is_some()
}

/// The verdict of `validate_groups`; none where the scan is refused.
pub fn validate_groups(bytes: &[u8]) -> Option<Result<(), String>> {
    let opened = Opened::scan(bytes).ok()?;
    Some(opened.validate_groups().map_err(|why| why.to_string()))
}

/// The number of the scan or of the check that is composed of the published
/// parsers.
pub fn composed_check(bytes: &[u8]) -> Option<String> {
    Some(composed::verdict(bytes))
}
