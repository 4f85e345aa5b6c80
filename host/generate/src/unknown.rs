//! Fields that no view knows: every wire type, any number, nested groups up to
//! sixteen deep. Readers have to skip them.

use crate::encode::{tag, FIXED32, FIXED64, GROUP_END, GROUP_START, LEN, VARINT};
use crate::model::Message;
use crate::prng::Prng;
use crate::spell::spell_varint;

/// Field numbers at the edges of the tag's length, and those of the schema.
const NUMBERS: [u32; 16] = [
    1,
    2,
    3,
    4,
    5,
    6,
    7,
    8,
    9,
    10,
    15,
    16,
    20,
    2047,
    2048,
    536_870_911,
];

/// A field that `message` does not take.
pub fn unknown_field(rng: &mut Prng, message: Message) -> Vec<u8> {
    loop {
        let field = rng.pick(&NUMBERS);
        let wire = rng.pick(&[VARINT, FIXED64, LEN, GROUP_START, FIXED32]);
        if !message.takes(field, wire) {
            return any_field(rng, field, wire, 16);
        }
    }
}

/// A legal field of this number and wire type; a group has at most `depth`
/// levels, its own among them.
fn any_field(rng: &mut Prng, field: u32, wire: u8, depth: usize) -> Vec<u8> {
    let mut bytes = spell_varint(rng, tag(field, wire), 10);
    match wire {
        VARINT => {
            let value = crate::random::number(rng);
            bytes.extend(spell_varint(rng, value, 20));
        }
        FIXED64 => bytes.extend(rng.bytes(8)),
        FIXED32 => bytes.extend(rng.bytes(4)),
        LEN => {
            let len = rng.below(6);
            bytes.extend(spell_varint(rng, len as u64, 20));
            bytes.extend(rng.bytes(len));
        }
        _ => {
            bytes.extend(group_content(rng, depth - 1));
            bytes.extend(spell_varint(rng, tag(field, GROUP_END), 10));
        }
    }
    bytes
}

/// What stands in a group: a few fields, groups among them while `depth` lasts.
fn group_content(rng: &mut Prng, depth: usize) -> Vec<u8> {
    let mut bytes = Vec::new();
    for _ in 0..rng.below(3) {
        let field = rng.pick(&NUMBERS);
        let wires = [VARINT, FIXED64, LEN, FIXED32, GROUP_START, GROUP_START];
        let wire = rng.pick(&wires[..if depth > 0 { 6 } else { 4 }]);
        bytes.extend(any_field(rng, field, wire, depth.max(1)));
    }
    bytes
}

/// Groups nested `depth` deep, each of a random number, all closed.
pub fn nested_groups(rng: &mut Prng, depth: usize) -> Vec<u8> {
    let fields: Vec<u32> = (0..depth).map(|_| rng.pick(&NUMBERS)).collect();
    let mut bytes = Vec::new();
    for &field in &fields {
        bytes.extend(spell_varint(rng, tag(field, GROUP_START), 5));
    }
    for &field in fields.iter().rev() {
        bytes.extend(spell_varint(rng, tag(field, GROUP_END), 5));
    }
    bytes
}
