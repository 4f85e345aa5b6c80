//! The text of a role and a position in nanodegrees through C, at the ends of
//! what they take.

use reader::Got;

use super::faults::Faults;
use super::record;
use super::shape::{bytes as bytes_of, numbers as numbers_of};
use super::slotted::Reads;
use super::told::{Told, told};

/// Numbers that are no role: on both sides of int32.
const NO_ROLES: [i64; 4] = [
    i32::MAX as i64 + 1,
    i32::MIN as i64 - 1,
    u32::MAX as i64,
    i64::MIN,
];

pub fn put(reads: &mut Reads, faults: &mut Faults) {
    let record = reads.record();
    let count = i32::try_from(record.string_count).unwrap_or(i32::MAX);
    for number in [0, count - 1, count, -1, i32::MAX, i32::MIN] {
        let expected = match reader::role_text(reads.buffer(), &record, number) {
            Got::Text(start, len) => (proved::OK, vec![start as u64, len as u64]),
            Got::None => (proved::NONE, vec![]),
            Got::Refused(number) => (u32::from(number), vec![]),
        };
        let found = role(reads, i64::from(number));
        faults.unless(is(&found, expected), "the reader has another role");
    }
    for number in NO_ROLES {
        let found = role(reads, number);
        let refused = is(&found, (proved::OUTSIDE, vec![]));
        faults.unless(refused, "what is no role is not refused with 14");
    }
    for (lat, lon) in [(0, 1), (-1, 7), (i64::MAX, i64::MIN), (i64::MIN, i64::MAX)] {
        let position = [(record.lat_offset, lat), (record.lon_offset, lon)];
        let expected = position.map(|(offset, raw)| {
            let degrees = reader::nanodegrees(offset, record.granularity, raw);
            degrees as u64
        });
        let found = nanodegrees(reads, lat, lon);
        let same = is(&found, (proved::OK, expected.to_vec()));
        faults.unless(same, "the reader has another position");
    }
    no_records(reads, faults);
}

/// What is no record is refused with 14.
fn no_records(reads: &mut Reads, faults: &mut Faults) {
    let numbers = *reads.numbers();
    for record in record::none(&numbers) {
        reads.lend_record(&record);
        for found in [role(reads, 0), nanodegrees(reads, 0, 0)] {
            let refused = is(&found, (proved::OUTSIDE, vec![]));
            faults.unless(refused, "what is no record is not refused with 14");
        }
        faults.unless(reads.is_record_unchanged(), "the record changed");
    }
    reads.lend_record(&bytes_of(&numbers));
}

pub fn role(reads: &mut Reads, number: i64) -> Told {
    told(proved::RANGE_SIZE, |out| {
        let (buffer, record) = reads.both();
        proved::role(buffer, record, number as usize, out)
    })
}

pub fn nanodegrees(reads: &mut Reads, lat: i64, lon: i64) -> Told {
    told(proved::NANODEGREES_SIZE, |out| {
        proved::nanodegrees(reads.both().1, lat as usize, lon as usize, out)
    })
}

/// Whether a call told this code and these numbers, and nothing else went
/// wrong.
fn is(told: &Told, (code, numbers): (u32, Vec<u64>)) -> bool {
    let found = numbers_of(&told.answer);
    (told.code, found) == (code, numbers) && told.faults == Faults::default()
}
