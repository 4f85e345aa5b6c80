//! One thing that a reader has to refuse, put into a message: faults of the
//! wire that fit every message, and those that only one kind can have.

use crate::encode::{len_field, padded_varint, tag, varint, varint_field, VARINT};
use crate::model::{Block, Message};
use crate::prng::Prng;
use crate::spell::Chunks;
use crate::unknown::nested_groups;

/// The number under which a fault stands; it may be placed anywhere.
const ANYWHERE: u32 = u32::MAX;

/// Ten varint bytes with the top bit set, without and with an end behind them.
const TOO_LONG: [&[u8]; 2] = [
    &[0xFF; 10],
    &[
        0x80, 0x80, 0x80, 0x80, 0x80, 0x80, 0x80, 0x80, 0x80, 0x80, 0x01,
    ],
];

/// Puts a fault behind the chunks of a message, or in place of one.
pub fn put_fault(rng: &mut Prng, message: Message, chunks: &mut Chunks) {
    if rng.chance(40) {
        let fault = wire_fault(rng);
        chunks.push((ANYWHERE, fault));
        return;
    }
    match message {
        Message::Block => bad_granularity(rng, chunks),
        Message::Group => second_dense(rng, chunks),
        Message::StringTable | Message::Info => {
            let fault = wire_fault(rng);
            chunks.push((ANYWHERE, fault));
        }
        _ => match (rng.below(3), message.info()) {
            (0, Some(field)) => second_info(rng, field, chunks),
            (1, _) => second_column(rng, message, chunks),
            _ => bad_column(rng, message, chunks),
        },
    }
}

/// A fault that fits every message.
fn wire_fault(rng: &mut Prng) -> Vec<u8> {
    let field = 1 + rng.below(20) as u32;
    let tagged = |wire: u8, payload: &[u8]| [&varint(tag(field, wire)), payload].concat();
    match rng.below(14) {
        0 => tagged(0, rng.pick(&TOO_LONG)),
        1 => tagged(0, &[0x80; 3]),
        2 => vec![rng.byte() & 7],
        3 => varint((1 << 32) + rng.below(64) as u64),
        4 => tagged(6, &[]),
        5 => tagged(7, &[]),
        6 => tagged(4, &[]),
        7 => tagged(3, &varint(tag(field + 1, 4))),
        8 => tagged(3, &[]),
        9 => nested_groups(rng, 17),
        10 => tagged(2, &varint(1 + rng.next_u64() % (1 << 20))),
        11 => tagged(2, &padded_varint(u64::MAX - rng.below(64) as u64, 10, 0)),
        12 => tagged(1, &[0; 7]),
        _ => tagged(5, &[0; 3]),
    }
}

fn bad_granularity(rng: &mut Prng, chunks: &mut Chunks) {
    let field = rng.pick(&[17, 18]);
    let below_int32 = (i64::from(i32::MIN) - 1) as u64;
    let outside = [1 << 31, u64::from(u32::MAX), 1 << 32, 1 << 63, below_int32];
    chunks.push((field, varint_field(field, rng.pick(&outside))));
}

/// Two dense fields; the payload of the second may be cut.
fn second_dense(rng: &mut Prng, chunks: &mut Chunks) {
    chunks.push((2, len_field(2, &[])));
    let second: [&[u8]; 4] = [&[0x12, 0x00], &[0x12], &[0x12, 0x80], &[0x12, 0x05]];
    chunks.push((2, rng.pick(&second).to_vec()));
}

fn second_info(rng: &mut Prng, field: u32, chunks: &mut Chunks) {
    for _ in 0..2 {
        chunks.push((field, len_field(field, &[0x08, rng.byte() & 0x7F])));
    }
}

fn second_column(rng: &mut Prng, message: Message, chunks: &mut Chunks) {
    let field = rng.pick(message.columns());
    for _ in 0..2 {
        let value = rng.byte() & 0x7F;
        let occurrence = if rng.chance(50) {
            len_field(field, &[value])
        } else {
            [varint(tag(field, VARINT)), vec![value]].concat()
        };
        chunks.push((field, occurrence));
    }
}

/// A column whose last varint is cut or too long.
fn bad_column(rng: &mut Prng, message: Message, chunks: &mut Chunks) {
    let field = rng.pick(message.columns());
    chunks.retain(|(number, _)| *number != field);
    let mut payload = vec![2; rng.below(3)];
    let bad: [&[u8]; 4] = [&[0x80], &[0x80; 9], TOO_LONG[0], TOO_LONG[1]];
    payload.extend(rng.pick(&bad));
    chunks.push((field, len_field(field, &payload)));
}

/// Makes columns of different counts: one column loses or gains a value.
pub fn unbalance(rng: &mut Prng, block: &mut Block) {
    let mut columns = counted_columns(block);
    if columns.is_empty() {
        return;
    }
    let at = rng.below(columns.len());
    let column = &mut columns[at];
    if column.is_empty() || rng.chance(50) {
        column.push(rng.below(5) as u64);
    } else {
        column.pop();
    }
}

/// The columns whose counts are compared with those of others.
fn counted_columns(block: &mut Block) -> Vec<&mut Vec<u64>> {
    let mut columns = Vec::new();
    for group in &mut block.groups {
        if let Some(dense) = &mut group.dense {
            columns.extend([&mut dense.ids, &mut dense.lats, &mut dense.lons]);
        }
        for node in &mut group.nodes {
            columns.extend([&mut node.common.keys, &mut node.common.vals]);
        }
        for way in &mut group.ways {
            columns.extend([&mut way.common.keys, &mut way.common.vals]);
        }
        for relation in &mut group.relations {
            columns.extend([&mut relation.common.keys, &mut relation.common.vals]);
            columns.extend([
                &mut relation.roles,
                &mut relation.memids,
                &mut relation.types,
            ]);
        }
    }
    columns
}
