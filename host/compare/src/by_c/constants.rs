//! The header's constants are the simple reader's, which has them from
//! document 01: the build fails where one is another.

use reader::{group, number};

const CODES: [(u32, number::Refusal); 14] = [
    (proved::BLOCK_TOO_LONG, number::BLOCK_TOO_LONG),
    (proved::VARINT_CUT, number::VARINT_CUT),
    (proved::VARINT_LONG, number::VARINT_TOO_LONG),
    (proved::TAG_VALUE, number::BAD_TAG),
    (proved::WIRE_TYPE, number::BAD_WIRE_TYPE),
    (proved::PAST_END, number::PAST_END),
    (proved::GROUP_DEPTH, number::TOO_DEEP),
    (proved::GRANULARITY, number::BAD_GRANULARITY),
    (proved::SECOND_COLUMN, number::SECOND_COLUMN),
    (proved::SECOND_INFO, number::SECOND_INFO),
    (proved::SECOND_DENSE, number::SECOND_DENSE),
    (proved::COUNTS, number::COUNTS_DIFFER),
    (proved::NO_ROOM, number::BUFFER_TOO_SHORT),
    (proved::OUTSIDE, number::OUTSIDE),
];

const FIELDS: [(usize, u32); 4] = [
    (proved::FIELD_NODE, group::NODE),
    (proved::FIELD_DENSE, group::DENSE),
    (proved::FIELD_WAY, group::WAY),
    (proved::FIELD_RELATION, group::RELATION),
];

const _: () = {
    assert!(proved::BLOCK_LIMIT as u64 == number::MAX_BLOCK);
    let mut at = 0;
    while at < CODES.len() {
        assert!(CODES[at].0 == CODES[at].1 as u32);
        at += 1;
    }
    at = 0;
    while at < FIELDS.len() {
        assert!(FIELDS[at].0 == FIELDS[at].1 as usize);
        at += 1;
    }
};
