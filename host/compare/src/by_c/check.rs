//! The check through C, of a block that was scanned through C.

use super::around::BEHIND;
use super::block::scanned;
use super::faults::Faults;
use super::lent::Lent;
use super::record::{self, BLOCK, ENTRY, Numbers, STRING_TABLE, STRINGS};
use super::shape::bytes as bytes_of;
use super::tables;
use crate::text::Words;

/// The number that the check gives in a buffer just large enough. In a longer
/// one and by a record that differs in nothing that the check looks at it must
/// be the same; what is no record and what passes the buffer is refused with
/// 14; and by another group table the ranges of that table count.
pub fn answer(bytes: &[u8]) -> String {
    let (buffer, numbers) = match scanned(bytes) {
        Ok(scanned) => scanned,
        Err(code) => return format!("unscanned {code}"),
    };
    let mut lent = Checked::new(&buffer);
    let code = lent.code(&bytes_of(&numbers));
    let mut longer = Checked::new(&[&buffer[..], &BEHIND].concat());
    let same = longer.code(&bytes_of(&numbers)) == code;
    longer.unless(same, "a longer buffer is answered otherwise");
    lent.same(&numbers, buffer.len() as u64, code);
    lent.refuses(&numbers, buffer.len() as u64);
    let mut out = Words::new();
    out.put(code);
    lent.faults.join(longer.faults);
    lent.faults.put(&mut out);
    tables::put(&buffer, &numbers, &mut out);
    out.done()
}

/// A buffer that is lent to the check again and again.
pub struct Checked {
    buffer: Lent,
    pub faults: Faults,
}

impl Checked {
    pub fn new(buffer: &[u8]) -> Checked {
        Checked {
            buffer: Lent::bytes(buffer),
            faults: Faults::default(),
        }
    }

    /// The code for a record's slice; neither it nor the buffer may change.
    pub fn code(&mut self, record: &[u8]) -> u32 {
        let mut record = Lent::bytes(record);
        let code = proved::check(self.buffer.slice(), record.slice());
        self.unless(record.is_unchanged(), "the record changed");
        let kept = self.buffer.is_unchanged();
        self.unless(kept, "the buffer changed");
        code
    }

    /// Puts other bytes into the buffer, for the questions from here on.
    pub fn set(&mut self, at: usize, bytes: &[u8]) {
        self.buffer.set(at, bytes);
    }

    /// The buffer as it is lent.
    pub fn bytes(&mut self) -> &[u8] {
        self.buffer.slice()
    }

    pub fn unless(&mut self, holds: bool, what: &'static str) {
        self.faults.unless(holds, what);
    }

    /// Records that say the same of the groups: a longer slice, other scalars,
    /// and another block and string table, which need only be inside.
    fn same(&mut self, numbers: &Numbers, len: u64, code: u32) {
        let longer = self.code(&record::longer(numbers));
        self.unless(longer == code, "a longer record is answered otherwise");
        let no_strings = [(BLOCK, 0), (STRINGS, 0), (STRING_TABLE, len)];
        let all_strings = [(BLOCK, len), (STRINGS, len / ENTRY), (STRING_TABLE, 0)];
        for changed in [no_strings, all_strings] {
            let other = self.code(&bytes_of(&record::with(numbers, &changed)));
            self.unless(other == code, "by other strings it is answered otherwise");
        }
    }

    /// What is no record, and what passes the buffer.
    fn refuses(&mut self, numbers: &Numbers, len: u64) {
        for record in record::none(numbers) {
            let refused = self.code(&record) == proved::OUTSIDE;
            self.unless(refused, "what is no record is not refused with 14");
        }
        for outside in record::outside(numbers, len) {
            let refused = self.code(&bytes_of(&outside)) == proved::OUTSIDE;
            self.unless(refused, "a record outside is not refused with 14");
        }
    }
}
