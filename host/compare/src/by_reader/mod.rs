//! The simple reader's answers, in the same words as the published Rust's.

mod leaf;
mod same;
mod scan;
mod views;
mod walk;

use reader::{Mode, Record, Refusal};

use crate::question::{Ask, scan_buffer};

/// A buffer and the record that it is read by.
pub type Opened<'a> = (&'a [u8], &'a Record);

/// The answer in words.
pub fn answer(ask: Ask, bytes: &[u8]) -> String {
    match ask {
        Ask::Varint { at } => leaf::varint(bytes, at),
        Ask::Field { at } => leaf::field(bytes, at),
        Ask::Column => leaf::column(bytes),
        Ask::Scan { len, room } => scan::scan(bytes, len, room),
        Ask::Get {
            place,
            count,
            index,
        } => scan::get(bytes, place, count, index),
        Ask::Group { record, index } => scan::group(bytes, record, index),
        Ask::Classify => scan::classify(bytes).to_string(),
        Ask::Node => views::node(bytes),
        Ask::Way => views::way(bytes),
        Ask::Relation => views::relation(bytes),
        Ask::Dense => views::dense(bytes),
        Ask::DenseInfo => views::dense_info(bytes),
        Ask::Info => views::info(bytes),
        Ask::DensePass => views::dense_pass(bytes),
        Ask::Messages { field } => walk::messages(bytes, field),
        Ask::Check => scanned(bytes, |buffer, record| {
            number(reader::check(buffer, record)).to_string()
        }),
        Ask::Plain => scanned(bytes, |buffer, record| walked(buffer, record, Mode::Plain)),
        Ask::Full => scanned(bytes, |buffer, record| walked(buffer, record, Mode::Full)),
    }
}

/// A walk over a buffer by a record, whether a scan left them so or not.
pub fn walked(buffer: &[u8], record: &Record, mode: Mode) -> String {
    walk::walk(buffer, record, mode)
}

/// Whether two blocks list the same: 0 and 1 or 0, or the number that is met.
pub fn same(first: Opened, second: Opened) -> String {
    match same::same(first, second) {
        Ok(same) => format!("0 {}", u8::from(same)),
        Err(number) => number.to_string(),
    }
}

/// The number of the scan, or that of the check where the scan took the
/// block: 0 for an accepted block.
pub fn verdict(bytes: &[u8]) -> Refusal {
    match open(bytes) {
        Ok((buffer, record)) => number(reader::check(&buffer, &record)),
        Err(refused) => refused,
    }
}

/// The block scanned in a buffer just large enough for its tables.
pub fn open(bytes: &[u8]) -> Result<(Vec<u8>, Record), Refusal> {
    let len = bytes.len() as u64;
    let mut buffer = scan_buffer(bytes, reader::always_enough(len));
    let record = reader::scan(&mut buffer, len)?;
    buffer.truncate(record.end() as usize);
    Ok((buffer, record))
}

fn number(answer: Result<(), Refusal>) -> Refusal {
    answer.err().unwrap_or(0)
}

fn scanned(bytes: &[u8], then: impl FnOnce(&[u8], &Record) -> String) -> String {
    match open(bytes) {
        Ok((buffer, record)) => then(&buffer, &record),
        Err(number) => format!("unscanned {number}"),
    }
}
