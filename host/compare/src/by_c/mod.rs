//! The proved library's answers through C, in the same words as the simple
//! reader's. Each question is put several times: with slices for the answer of
//! several lengths, in a longer buffer, with ranges and records that are none.
//! Where one of them goes wrong, or a lent byte changes that must not, the
//! answer says so at its end, and then it equals no answer of the reader.

mod ahead;
mod around;
mod block;
mod check;
mod constants;
mod ends;
mod faults;
mod forged;
mod items;
mod lent;
mod messages;
mod record;
mod refusals;
mod same;
mod shape;
mod slotted;
mod starts;
mod states;
mod tables;
mod told;
mod views;
mod walk;

use reader::{Mode, Record};

use crate::by_reader::Opened;
use crate::question::{Ask, Places};
use crate::tried::Tried;

/// The library that is linked.
pub const ARCHIVE: Option<&str> = Some(proved::ARCHIVE);

/// The answer in words; none where C has no such question: the leaf.
pub fn answer(ask: Ask, bytes: &[u8]) -> Option<String> {
    let text = match ask {
        Ask::Scan { len, room } => block::scan(bytes, len, room),
        Ask::Get {
            place,
            count,
            index,
        } => block::by_record(proved::get, bytes, only_strings(place, count), index),
        Ask::Group { record, index } => block::by_record(proved::group, bytes, record, index),
        Ask::Classify => views::classify(bytes),
        Ask::Node => views::answer(&views::NODE, bytes),
        Ask::Way => views::answer(&views::WAY, bytes),
        Ask::Relation => views::answer(&views::RELATION, bytes),
        Ask::Dense => views::answer(&views::DENSE_NODES, bytes),
        Ask::DenseInfo => views::answer(&views::DENSE_INFO, bytes),
        Ask::Info => views::answer(&views::INFO, bytes),
        Ask::DensePass => views::answer(&views::DENSE, bytes),
        Ask::Messages { field } => messages::answer(bytes, field),
        Ask::Check => check::answer(bytes),
        Ask::Varint { .. } | Ask::Field { .. } | Ask::Column => return None,
        Ask::Plain => walk::answer(bytes, Mode::Plain),
        Ask::Full => walk::answer(bytes, Mode::Full),
    };
    Some(text)
}

/// A walk over a buffer by a record, whether a scan left them so or not.
pub fn walked(buffer: &[u8], record: &Record, mode: Mode) -> Option<String> {
    Some(walk::walked(buffer, &record::of(record), mode))
}

/// Whether two blocks list the same, by buffers and records that scans left or
/// not.
pub fn same(first: Opened, second: Opened) -> Option<String> {
    let (a, b) = (record::of(first.1), record::of(second.1));
    Some(same::answer((first.0, &a), (second.0, &b)))
}

/// The same, asked also in other slices and by what is no record.
pub fn same_around(first: Opened, second: Opened) -> Option<String> {
    let (a, b) = (record::of(first.1), record::of(second.1));
    Some(same::answer_around((first.0, &a), (second.0, &b)))
}

/// States that no walk over the block left, each number of each at its edges;
/// with a seed some of them at random.
pub fn forged(bytes: &[u8], seed: Option<u64>) -> Vec<Tried> {
    match seed {
        None => forged::all(bytes),
        Some(seed) => forged::some(bytes, seed),
    }
}

/// `get` reads nothing else of a record.
fn only_strings(place: u64, count: u64) -> Places {
    Places {
        block_len: 0,
        string_table: place,
        string_count: count,
        group_table: 0,
        group_count: 0,
    }
}
