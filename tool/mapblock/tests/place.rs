//! The place of a refusal agrees with the check: over every family of blocks
//! that the judge's generator makes, what is found message by message has the
//! check's own number, and its bytes lie in the block.

use generate::encode::{len_field, varint_field};
use mapblock::block::Block;
use mapblock::place::{self, Place};

const SEED: u64 = 7;
const STRUCTURED: usize = 10_000;

/// The place of a block's refusal, held to the check's number.
fn place_of(bytes: &[u8]) -> Option<Place> {
    let mut block = Block::read(bytes.to_vec());
    let found = place::find(&mut block);
    let number = found.as_ref().map_or(0, |place| place.number);
    assert_eq!(number, block.number(), "{bytes:02x?}: {found:?}");
    found
}

#[test]
fn the_number_found_at_a_place_is_the_check_s() {
    let mut met = [0; 16];
    generate::for_each_block(SEED, STRUCTURED, &mut |_, bytes| {
        let Some(place) = place_of(bytes) else {
            met[0] += 1;
            return;
        };
        met[place.number as usize] += 1;
        let held = place.bytes.contains(&place.byte) && place.bytes.end <= bytes.len();
        assert!(held, "{bytes:02x?}: {place:?}");
    });
    // 1 takes a long block, 13 and 14 are no fault of a block's.
    for number in [0].into_iter().chain(2..=12) {
        assert!(met[number] > 0, "number {number} was never met");
    }
}

#[test]
fn the_longest_blocks_have_a_place_too() {
    generate::for_each_limit(&mut |limit| {
        let whole = limit.buffer.get(..limit.block_len as usize);
        if let Some(bytes) = whole {
            place_of(bytes);
        }
    });
}

/// A block of these groups, each with these messages.
fn block(groups: &[&[Vec<u8>]]) -> Vec<u8> {
    groups
        .iter()
        .flat_map(|messages| len_field(2, &messages.concat()))
        .collect()
}

/// The text of the place at which a block is refused.
fn told(bytes: &[u8]) -> String {
    place_of(bytes).map_or("accepted".to_string(), |place| place.to_string())
}

fn way(id: u64, rest: &[u8]) -> Vec<u8> {
    len_field(3, &[&varint_field(1, id), rest].concat())
}

#[test]
fn group_kind_element_and_bytes_are_told() {
    let good = way(5, &[]);
    let uneven = way(6, &[len_field(2, &[1, 2, 3]), len_field(3, &[1])].concat());
    let twice = way(7, &[len_field(8, &[2]), len_field(8, &[2])].concat());
    let long = way(8, &len_field(8, &[[2; 3].as_slice(), &[0xFF; 11]].concat()));
    assert_eq!(
        told(&block(&[&[], &[good.clone(), uneven]])),
        "group 1, way 1 (id 6), how many values its columns have (keys has 3, vals has 1): \
         bytes 14 to 19 of the block, certain at byte 19"
    );
    assert_eq!(
        told(&block(&[&[good.clone(), good.clone(), twice]])),
        "group 0, way 2 (id 7), its fields: bytes 12 to 19 of the block, certain at byte 19"
    );
    assert_eq!(
        told(&block(&[&[long]])),
        "group 0, way 0 (id 8), its column refs: bytes 8 to 21 of the block, certain at byte 20"
    );
}

#[test]
fn dense_nodes_are_told_by_their_number() {
    let columns = [1, 8, 9].map(|field| len_field(field, &[2, 2, 2])).concat();
    let tags = len_field(10, &[1, 1, 0, 1]);
    let dense = len_field(2, &[columns, tags].concat());
    assert_eq!(
        told(&block(&[&[dense]])),
        "group 0, dense node 1, its tags in the column keys_vals: \
         bytes 21 to 24 of the block, certain at byte 24"
    );
}

#[test]
fn a_number_that_is_too_long_is_told_where_it_ends() {
    let columns = [1, 8, 9].map(|field| len_field(field, &[2, 2])).concat();
    let tags = len_field(10, &[&[0, 1][..], &[0xFF; 11], &[0]].concat());
    let dense = len_field(2, &[columns, tags].concat());
    assert_eq!(
        told(&block(&[&[dense]])),
        "group 0, dense node 1, its tags in the column keys_vals: \
         bytes 18 to 31 of the block, certain at byte 29"
    );
}

#[test]
fn the_block_s_own_fields_and_its_strings_are_told() {
    let group = block(&[&[]]);
    assert_eq!(
        told(&[group.clone(), group.clone(), vec![0x07, 0x01]].concat()),
        "the block's own fields, behind 2 groups: bytes 4 to 5 of the block, certain at byte 4"
    );
    let table = len_field(1, &[0x0A, 0x01, 0x61, 0x0E]);
    assert_eq!(
        told(&[group, table].concat()),
        "the string table: bytes 4 to 7 of the block, certain at byte 7"
    );
    let granularity = varint_field(17, 1 << 31);
    assert_eq!(
        told(&[granularity, vec![0x12, 0x00]].concat()),
        "the block's own fields: bytes 0 to 8 of the block, certain at byte 6"
    );
}
