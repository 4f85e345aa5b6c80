//! What an answer holds and where, and how it reads in the words of the other
//! sides. Every number is 8 little-endian bytes, a signed one in two's
//! complement; the places are the header's.

use proved::{PART_LENGTH, PART_PRESENT, PART_START};

use crate::text::Words;

/// The bytes of a number.
pub const NUMBER: usize = proved::NUMBER_SIZE;

#[derive(Clone, Copy)]
pub enum Item {
    /// At its place.
    Number(usize),
    /// Whether it is present, and the value, each at its place: 0 where it is
    /// not.
    Optional(usize, usize),
    /// Whether it is present, start and length, from a place on.
    Part(usize),
}

/// An answer's size, and its items in the order of the other sides.
pub struct Shape {
    pub size: usize,
    items: &'static [Item],
}

impl Shape {
    /// The items must fill the answer, so that every number of it is told.
    pub const fn new(size: usize, items: &'static [Item]) -> Shape {
        let (mut filled, mut at) = (0, 0);
        while at < items.len() {
            filled += match items[at] {
                Item::Number(_) => NUMBER,
                Item::Optional(..) => 2 * NUMBER,
                Item::Part(_) => proved::PART_SIZE,
            };
            at += 1;
        }
        assert!(filled == size);
        Shape { size, items }
    }

    /// The answer in words; a present part is told from `base` on.
    pub fn put(&self, answer: &[u8], base: u64, out: &mut Words) {
        for &item in self.items {
            put_item(item, answer, base, out);
        }
    }
}

/// Start and length of a range.
pub const RANGE: Shape = Shape::new(
    proved::RANGE_SIZE,
    &[
        Item::Number(proved::RANGE_START),
        Item::Number(proved::RANGE_LENGTH),
    ],
);

/// Flags other than 0 and 1 and an absent value other than 0 are no answer of
/// the reader: they are told as they are.
fn put_item(item: Item, answer: &[u8], base: u64, out: &mut Words) {
    match item {
        Item::Number(place) => out.put(proved::number(answer, place) as i64),
        Item::Optional(present, value) => {
            match [present, value].map(|place| proved::number(answer, place)) {
                [0, 0] => out.put('~'),
                [1, value] => out.put(value as i64),
                other => out.put(format!("{other:?}")),
            }
        }
        Item::Part(place) => match part(&answer[place..]) {
            [1, start, len] => out.put(1).put(start.wrapping_sub(base)).put(len),
            [present, start, len] => out.put(present).put(start).put(len),
        },
    };
}

/// A part's numbers: present, start, length.
pub fn part(bytes: &[u8]) -> [u64; 3] {
    [PART_PRESENT, PART_START, PART_LENGTH].map(|place| proved::number(bytes, place))
}

/// The numbers in some bytes.
pub fn numbers(bytes: &[u8]) -> Vec<u64> {
    let places = (0..bytes.len() / NUMBER).map(|at| at * NUMBER);
    places.map(|place| proved::number(bytes, place)).collect()
}

/// The bytes of some numbers.
pub fn bytes(numbers: &[u64]) -> Vec<u8> {
    numbers.iter().flat_map(|n| n.to_le_bytes()).collect()
}
