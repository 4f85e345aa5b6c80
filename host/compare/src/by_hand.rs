//! Inputs of the fixed list that are made by hand: varints, blocks and
//! payloads as bytes, and one block of every element kind, whole and with one
//! thing wrong.

use generate::encode::{deltas, len_field, varint, varint_field};

use crate::text::parse_bytes;

/// Bytes at which a varint, a tag or a column decides.
const LEAVES: [&str; 26] = [
    "x",
    "x00",
    "x01",
    "x7f",
    "x80",
    "x8000",
    "xff7f",
    "x808001",
    "xffffffff07",
    "x8080808008",
    "xffffffff0f",
    "x8080808010",
    "xfeffffffffffffffff01",
    "xffffffffffffffffff01",
    "x80808080808080808001",
    "x80808080808080808002",
    "xffffffffffffffffff7f",
    "xffffffffffffffffffff",
    "xffffffffffffffffffff01",
    "xffffffffffffffffff",
    "x0200050180808080808080808001",
    "x0a0161",
    "x090000000000000000",
    "x1500000000",
    "x0b08010c",
    "x8a808080808080808000027a7a",
];

/// Blocks. The first ones are neighbours of document 01's field examples.
const BLOCKS: [&str; 23] = [
    "x1200",
    "x12040a022200",
    "x0a030a01610a00",
    "x08ffffffffffffffffffff",
    "x12031a0840",
    // Granularities at both ends of int32 and one past.
    "x880180808080f8ffffffff01",
    "x8801fffffffff7ffffffff01",
    "x9001ffffffff07900180808080f8ffffffff01",
    "x900180808080089801",
    // Offsets, the last wins; a tenth byte whose upper bits are dropped.
    "x980101a001ffffffffffffffffff019801ffffffffffffffffff7f",
    "x9801808080808080808080029801",
    // An earlier string table is not read inside; the last one is, late.
    "x0a02ff0a0a030a0161",
    "x0a030a01610a020a05",
    "x0a020a0510",
    // Overlong tag and length, fields of the other wire types.
    "x8a808000848000120a0061",
    "x090102030405060708150102030432006b6c",
    "x0901020304050607",
    "x15010203",
    // A tag of 2^32 + 10, one of 2^32 - 6, a length past all ends.
    "x8a8080801000",
    "xfaffffff0f00",
    "x0affffffffffffffffff01",
    // A group that is closed by another number, and a right one in one.
    "x0b131c0c",
    "x0b13140c",
];

/// Payloads for every view.
const PAYLOADS: [&str; 27] = [
    "x",
    "x40004000",
    "x220100220100",
    "x1a0208071a002200",
    "x0807420102420102",
    "x08074200420102 4200",
    "x08074002",
    "x08ffffffff0f",
    "x28ffffffff0f",
    "x12001200",
    "x12001205",
    "x120012",
    "x12001280",
    "x0a0a00",
    "x0a000a05",
    "x22002202080122002201",
    "x2200220208012200",
    "x2a002a020801",
    "x2a0208012a00",
    "x2a0208012a021001",
    "x22002201222201",
    "x18ffffffffffffffffff0110ffffffffffffffff7f28ffffffffff013001",
    "x08010802180118ffffffffffffffffff01",
    "x0802108080808010a201016142028003",
    "x10011801200228024001480150016001",
    "xa20100a2010161a20100",
    "x0a0102120103420204064a02020452020000",
];

/// A payload that is refused with each number from 2 to 7.
const REFUSED: [&str; 6] = [
    "x0880",
    "x08ffffffffffffffffffff",
    "x07",
    "x0e",
    "x0a05",
    "x7b7b7b7b7b7b7b7b7b7b7b7b7b7b7b7b7b",
];

pub fn leaves() -> Vec<Vec<u8>> {
    bytes(&LEAVES)
}

pub fn payloads() -> Vec<Vec<u8>> {
    bytes(&PAYLOADS)
        .into_iter()
        .chain(bytes(&REFUSED))
        .collect()
}

/// Blocks for every question about blocks.
pub fn blocks() -> Vec<Vec<u8>> {
    let nested = |depth| [vec![0x0b; depth], vec![0x0c; depth]].concat();
    let mut blocks = bytes(&BLOCKS);
    blocks.extend([nested(16), nested(17)]);
    blocks.extend((0..12).map(every_kind));
    blocks.extend([long_string(), long_group()]);
    blocks
}

/// Two strings and a way. Places and lengths of 256 and more take two bytes of
/// a table entry: the first string is as long, the rest stands behind it.
fn long_string() -> Vec<u8> {
    let strings = [len_field(1, &[b'a'; 258]), len_field(1, b"k")].concat();
    let way = len_field(3, &tagged(&[1]));
    [len_field(1, &strings), len_field(2, &way)].concat()
}

/// The same of groups: the first one is as long, with a field that no view
/// knows, and the second one and the string stand behind it.
fn long_group() -> Vec<u8> {
    let node = len_field(1, &tagged(&[0]));
    let strings = len_field(1, b"k");
    [
        len_field(2, &len_field(15, &[b'a'; 255])),
        len_field(2, &node),
        len_field(1, &strings),
    ]
    .concat()
}

/// An element whose keys are its vals.
fn tagged(strings: &[u8]) -> Vec<u8> {
    [len_field(2, strings), len_field(3, strings)].concat()
}

/// Blocks with one message, of every kind, that is refused: where in the
/// check and the walks a refusal is met.
pub fn blocks_with_a_refused_message() -> Vec<Vec<u8>> {
    let around: [&[u8]; 7] = [&[1], &[2], &[3], &[4], &[2, 5], &[1, 4], &[4, 4]];
    let refused = bytes(&REFUSED);
    let wrap = |fields: &[u8], payload: &Vec<u8>| {
        let wrapped = fields.iter().rev();
        let group = wrapped.fold(payload.clone(), |inner, &field| {
            len_field(field.into(), &inner)
        });
        len_field(2, &group)
    };
    around
        .iter()
        .flat_map(|fields| refused.iter().map(|p| wrap(fields, p)))
        .collect()
}

fn bytes(lines: &[&str]) -> Vec<Vec<u8>> {
    lines
        .iter()
        .filter_map(|line| parse_bytes(&line.replace(' ', "")))
        .collect()
}

/// Two dense nodes and a node, an empty group, a relation and a way; one
/// thing is wrong or odd by its number, nothing for 0.
fn every_kind(fault: u32) -> Vec<u8> {
    let texts = [&b""[..], b"k", b"v", b"outer"];
    let strings: Vec<u8> = texts.iter().flat_map(|text| len_field(1, text)).collect();
    let second_dense = if fault == 11 {
        len_field(2, &[])
    } else {
        vec![]
    };
    let first = [
        len_field(1, &node(fault)),
        len_field(2, &dense(fault)),
        second_dense,
    ]
    .concat();
    let second = [len_field(4, &relation(fault)), len_field(3, &way(fault))].concat();
    let groups = [
        len_field(2, &first),
        len_field(2, &[]),
        len_field(2, &second),
    ]
    .concat();
    [
        len_field(1, &strings),
        groups,
        varint_field(17, 10),
        varint_field(19, 1000),
    ]
    .concat()
}

fn dense(fault: u32) -> Vec<u8> {
    let info = [
        len_field(1, if fault == 1 { &[1] } else { &[1, 2] }),
        len_field(2, &column(&[7, 9])),
        len_field(3, &column(&[3, 3])),
        len_field(
            4,
            &if fault == 2 {
                vec![0xff]
            } else {
                column(&[5, -1])
            },
        ),
        len_field(5, &column(&[3, 0])),
        len_field(6, if fault == 3 { &[] } else { &[0] }),
    ];
    let lats = if fault == 4 {
        vec![2]
    } else {
        column(&[i64::MAX, i64::MIN])
    };
    let keys_vals: &[u8] = if fault == 5 {
        &[1, 2, 0, 1]
    } else {
        &[1, 2, 0, 1, 0, 1, 9, 0]
    };
    [
        len_field(1, &column(&[10, -4])),
        len_field(5, &info.concat()),
        len_field(8, &lats),
        len_field(9, &column(&[-1, 1])),
        len_field(10, keys_vals),
    ]
    .concat()
}

fn node(fault: u32) -> Vec<u8> {
    let version = if fault == 6 { u64::MAX } else { 2 };
    let behind = if fault == 7 { vec![0x0d] } else { vec![] };
    let info = [varint_field(1, version), varint_field(5, 3), behind].concat();
    [
        varint_field(1, 9),
        len_field(2, if fault == 8 { &[1, 1] } else { &[1] }),
        len_field(3, &[2]),
        len_field(4, &info),
        varint_field(8, 5),
        varint_field(9, 4),
    ]
    .concat()
}

fn way(fault: u32) -> Vec<u8> {
    let refs = if fault == 9 {
        vec![0x80]
    } else {
        column(&[7, 8, 1])
    };
    [varint_field(1, 20), len_field(8, &refs)].concat()
}

/// Members of the four kinds; a role past the table and one below 0.
fn relation(fault: u32) -> Vec<u8> {
    let types: &[u8] = if fault == 10 {
        &[0, 1, 2]
    } else {
        &[0, 1, 2, 7]
    };
    [
        varint_field(1, 30),
        len_field(2, &[1, 1]),
        len_field(3, &[2, 77]),
        len_field(8, &[3, 0, 77, 0xff, 0xff, 0xff, 0xff, 0x0f]),
        len_field(9, &column(&[8, 21, 30, -1])),
        len_field(10, types),
    ]
    .concat()
}

/// Running sums as a column of their differences.
fn column(sums: &[i64]) -> Vec<u8> {
    deltas(sums).into_iter().flat_map(varint).collect()
}
