//! Whether two blocks list the same, through C, by buffers and records that
//! scans left or not.

use super::around::BEHIND;
use super::faults::Faults;
use super::lent::Lent;
use super::record::{self, Numbers};
use super::shape::{Item, Shape, bytes as bytes_of};
use super::told::told;

const SAME: Shape = Shape::new(proved::SAME_SIZE, &[Item::Number(0)]);

/// A buffer and a record's slice as they are lent.
#[derive(Clone)]
struct Side {
    buffer: Vec<u8>,
    record: Vec<u8>,
}

/// What is said of two buffers by two records.
pub fn answer(first: (&[u8], &Numbers), second: (&[u8], &Numbers)) -> String {
    asked(&side(first), &side(second))
}

/// The same; in longer buffers and by longer slices it must be the same, and
/// what is no record or passes its buffer is refused with 14, whatever the
/// other block is.
pub fn answer_around(first: (&[u8], &Numbers), second: (&[u8], &Numbers)) -> String {
    let (a, b) = (side(first), side(second));
    let mut text = asked(&a, &b);
    let around = asked(&longer(&a), &longer(&b));
    if around != text {
        text = format!("{text} but in longer slices {around}");
    }
    let outside = |text: String| text == proved::OUTSIDE.to_string();
    let refused = wrong(first).iter().all(|a| outside(asked(a, &b)))
        && wrong(second).iter().all(|b| outside(asked(&a, b)));
    if !refused {
        text.push_str(" but what is no record or is outside is not refused with 14");
    }
    text
}

fn side((buffer, numbers): (&[u8], &Numbers)) -> Side {
    Side {
        buffer: buffer.to_vec(),
        record: bytes_of(numbers),
    }
}

fn longer(side: &Side) -> Side {
    Side {
        buffer: [&side.buffer[..], &BEHIND].concat(),
        record: [&side.record[..], &BEHIND].concat(),
    }
}

/// The buffer with slices that hold no record, and with records that pass it.
fn wrong((buffer, numbers): (&[u8], &Numbers)) -> Vec<Side> {
    let outside = record::outside(numbers, buffer.len() as u64);
    let outside = outside.iter().map(|numbers| bytes_of(numbers));
    record::none(numbers)
        .into_iter()
        .chain(outside)
        .map(|record| Side {
            buffer: buffer.to_vec(),
            record,
        })
        .collect()
}

/// In slices for the answer of several lengths; nothing that is read changes.
fn asked(a: &Side, b: &Side) -> String {
    let [mut first, mut second] = [a, b].map(|side| Lent::bytes(&side.buffer));
    let [mut one, mut other] = [a, b].map(|side| Lent::bytes(&side.record));
    let mut faults = Faults::default();
    let mut told = told(SAME.size, |out| {
        let code = proved::same_listing(
            first.slice(),
            one.slice(),
            second.slice(),
            other.slice(),
            out,
        );
        for lent in [&first, &second] {
            faults.unless(lent.is_unchanged(), "a buffer changed");
        }
        for lent in [&one, &other] {
            faults.unless(lent.is_unchanged(), "a record changed");
        }
        code
    });
    told.faults.join(faults);
    told.text(&SAME, 0)
}
