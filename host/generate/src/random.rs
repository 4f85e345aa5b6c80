//! Random models: small blocks of every kind of element, with numbers at every
//! boundary, numbers past the string table, and info columns of other counts.

use crate::model::{Block, Common, Dense, Group, Info, Node, Relation, Way};
use crate::prng::Prng;

/// Values at which a width, a sign or a varint's length changes.
const BOUNDARIES: [u64; 22] = [
    0,
    1,
    2,
    3,
    0x7F,
    0x80,
    0x3FFF,
    0x4000,
    0x7FFF_FFFE,
    0x7FFF_FFFF,
    0x8000_0000,
    0xFFFF_FFFE,
    0xFFFF_FFFF,
    0x1_0000_0000,
    0x1_0000_0001,
    0x1_FFFF_FFFF,
    0x7FFF_FFFF_FFFF_FFFE,
    0x7FFF_FFFF_FFFF_FFFF,
    0x8000_0000_0000_0000,
    0x8000_0000_0000_0001,
    0xFFFF_FFFF_FFFF_FFFE,
    0xFFFF_FFFF_FFFF_FFFF,
];

/// A raw varint value: small, at a boundary, or of any length.
pub fn number(rng: &mut Prng) -> u64 {
    match rng.below(5) {
        0 | 1 => rng.below(8) as u64,
        2 => rng.below(300) as u64,
        3 => rng.pick(&BOUNDARIES),
        _ => {
            let shift = rng.below(64);
            rng.next_u64() >> shift
        }
    }
}

fn numbers(rng: &mut Prng, count: usize) -> Vec<u64> {
    (0..count).map(|_| number(rng)).collect()
}

fn maybe_number(rng: &mut Prng) -> Option<u64> {
    if rng.chance(85) {
        Some(number(rng))
    } else {
        None
    }
}

/// A string number, mostly one that the table has.
fn string_number(rng: &mut Prng, strings: usize) -> u64 {
    let inside = rng.below(strings.max(1)) as u64;
    match rng.below(20) {
        0 => strings as u64,
        1 => inside + (1 << 32),
        2 => number(rng),
        _ => inside,
    }
}

fn string_numbers(rng: &mut Prng, strings: usize, count: usize) -> Vec<u64> {
    (0..count).map(|_| string_number(rng, strings)).collect()
}

/// A random block; one in four has no strings, groups may be empty.
pub fn block(rng: &mut Prng) -> Block {
    let strings = if rng.chance(25) { 0 } else { 1 + rng.below(6) };
    let groups = rng.below(4);
    Block {
        strings: (0..strings).map(|_| string(rng)).collect(),
        groups: (0..groups).map(|_| group(rng, strings)).collect(),
        scalars: scalars(rng),
    }
}

/// A block large enough that lengths, counts and string numbers need more than
/// one varint byte.
pub fn large_block(rng: &mut Prng) -> Block {
    let strings = 100 + rng.below(200);
    Block {
        strings: (0..strings).map(|_| string(rng)).collect(),
        groups: (0..2).map(|_| large_group(rng, strings)).collect(),
        scalars: scalars(rng),
    }
}

fn large_group(rng: &mut Prng, strings: usize) -> Group {
    let (nodes, refs, members) = (rng.below(400), rng.below(300), rng.below(200));
    let mut group = Group {
        dense: Some(dense_of(rng, strings, nodes)),
        nodes: (0..30).map(|_| node(rng, strings)).collect(),
        ways: (0..30).map(|_| way(rng, strings)).collect(),
        relations: (0..30).map(|_| relation(rng, strings)).collect(),
    };
    group.ways.push(way_of(rng, strings, refs));
    group.relations.push(relation_of(rng, strings, members));
    group
}

/// A short string, sometimes empty, sometimes of any bytes.
fn string(rng: &mut Prng) -> Vec<u8> {
    let len = rng.below(5);
    if rng.chance(20) {
        return rng.bytes(len);
    }
    (0..len).map(|_| b'a' + rng.below(26) as u8).collect()
}

/// Granularities inside int32, offsets anywhere.
fn scalars(rng: &mut Prng) -> [Option<u64>; 4] {
    let int32 = [1, 100, 0, -1, i32::MAX, i32::MIN, 1000];
    let mut granularity = |percent| {
        let value = i64::from(rng.pick(&int32)) as u64;
        rng.chance(percent).then_some(value)
    };
    let (grain, dates) = (granularity(40), granularity(30));
    let mut offset = || {
        let value = number(rng);
        rng.chance(30).then_some(value)
    };
    [grain, dates, offset(), offset()]
}

pub fn group(rng: &mut Prng, strings: usize) -> Group {
    let mut count = |percent| {
        if rng.chance(percent) {
            1 + rng.below(3)
        } else {
            0
        }
    };
    let (dense, nodes, ways, relations) = (count(50), count(40), count(40), count(40));
    Group {
        dense: (dense > 0).then(|| self::dense(rng, strings)),
        nodes: (0..nodes).map(|_| node(rng, strings)).collect(),
        ways: (0..ways).map(|_| way(rng, strings)).collect(),
        relations: (0..relations).map(|_| relation(rng, strings)).collect(),
    }
}

pub fn dense(rng: &mut Prng, strings: usize) -> Dense {
    let nodes = rng.below(5);
    dense_of(rng, strings, nodes)
}

fn dense_of(rng: &mut Prng, strings: usize, nodes: usize) -> Dense {
    let with_info = rng.chance(50);
    Dense {
        ids: numbers(rng, nodes),
        lats: numbers(rng, nodes),
        lons: numbers(rng, nodes),
        keys_vals: keys_vals(rng, strings, nodes),
        info: with_info.then(|| dense_info(rng, nodes)),
    }
}

/// Pairs per node, each node closed by 0. The column may end early, miss its
/// last 0, or go on behind the last node, where it is unread.
fn keys_vals(rng: &mut Prng, strings: usize, nodes: usize) -> Vec<u64> {
    let mut column = Vec::new();
    if rng.chance(30) {
        return column;
    }
    let tagged = if rng.chance(15) {
        rng.below(nodes + 1)
    } else {
        nodes
    };
    for _ in 0..tagged {
        for _ in 0..rng.below(3) {
            column.push(string_number(rng, strings).max(1));
            column.push(string_number(rng, strings));
        }
        column.push(0);
    }
    match rng.below(10) {
        0 => {
            column.pop();
        }
        1 if tagged == nodes => {
            let count = rng.below(4);
            column.extend(numbers(rng, count));
        }
        _ => {}
    }
    column
}

/// Six columns, mostly as long as there are nodes.
pub fn dense_info(rng: &mut Prng, nodes: usize) -> [Vec<u64>; 6] {
    std::array::from_fn(|_| {
        let count = if rng.chance(75) {
            nodes
        } else {
            rng.below(nodes + 3)
        };
        numbers(rng, count)
    })
}

pub fn info(rng: &mut Prng) -> Info {
    let minus_one = [u64::MAX, u64::from(u32::MAX)];
    std::array::from_fn(|_| match rng.below(10) {
        0 | 1 => None,
        2 => Some(rng.pick(&minus_one)),
        _ => Some(number(rng)),
    })
}

fn common(rng: &mut Prng, strings: usize) -> Common {
    let tags = rng.below(4);
    let with_info = rng.chance(40);
    Common {
        id: maybe_number(rng),
        keys: string_numbers(rng, strings, tags),
        vals: string_numbers(rng, strings, tags),
        info: with_info.then(|| info(rng)),
    }
}

pub fn node(rng: &mut Prng, strings: usize) -> Node {
    Node {
        common: common(rng, strings),
        lat: maybe_number(rng),
        lon: maybe_number(rng),
    }
}

pub fn way(rng: &mut Prng, strings: usize) -> Way {
    let refs = rng.below(6);
    way_of(rng, strings, refs)
}

fn way_of(rng: &mut Prng, strings: usize, refs: usize) -> Way {
    let located = if rng.chance(20) { rng.below(4) } else { 0 };
    let pins = rng.chance(10);
    Way {
        common: common(rng, strings),
        refs: numbers(rng, refs),
        lats: numbers(rng, located),
        lons: numbers(rng, located),
        pins: pins.then(|| {
            let len = rng.below(4);
            rng.bytes(len)
        }),
    }
}

pub fn relation(rng: &mut Prng, strings: usize) -> Relation {
    let members = rng.below(5);
    relation_of(rng, strings, members)
}

fn relation_of(rng: &mut Prng, strings: usize, members: usize) -> Relation {
    let types = (0..members).map(|_| member_type(rng));
    Relation {
        types: types.collect(),
        common: common(rng, strings),
        roles: string_numbers(rng, strings, members),
        memids: numbers(rng, members),
    }
}

/// Mostly a known type; also those whose low 32 bits alone are known.
fn member_type(rng: &mut Prng) -> u64 {
    match rng.below(8) {
        0 => number(rng),
        1 => (1 << 32) + rng.below(3) as u64,
        _ => rng.below(3) as u64,
    }
}
