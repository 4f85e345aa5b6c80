//! Blocks of any length with elements of one kind, in one group or each in one
//! of its own, and strings for their tags and roles.

use generate::encode::{varint, zigzag};

pub struct Made {
    pub name: &'static str,
    /// Whether its elements have nothing in them.
    pub is_empty: bool,
    /// Its groups, of at most so many bytes.
    groups: fn(usize) -> Vec<u8>,
}

pub const MADE: [Made; 5] = [
    Made {
        name: "dense",
        is_empty: false,
        groups: dense_nodes,
    },
    Made {
        name: "ways",
        is_empty: false,
        groups: ways,
    },
    Made {
        name: "relations",
        is_empty: false,
        groups: relations,
    },
    Made {
        name: "empty",
        is_empty: true,
        groups: empty_relations,
    },
    Made {
        name: "groups",
        is_empty: false,
        groups: one_way_groups,
    },
];

/// Room for the tags and lengths around a group's messages.
const AROUND: usize = 64;

impl Made {
    /// A block of at most `len` bytes.
    pub fn block(&self, len: usize) -> Vec<u8> {
        let texts = ["", "highway", "path", "outer", "name", "Fürstensteig"];
        let strings: Vec<u8> = texts
            .iter()
            .flat_map(|text| field(1, text.as_bytes()))
            .collect();
        let mut block = field(1, &strings);
        block.extend((self.groups)(len - block.len()));
        block
    }
}

fn field(number: u8, payload: &[u8]) -> Vec<u8> {
    let mut bytes = vec![number << 3 | 2];
    bytes.extend(varint(payload.len() as u64));
    bytes.extend_from_slice(payload);
    bytes
}

fn column(number: u8, values: impl IntoIterator<Item = u64>) -> Vec<u8> {
    let payload: Vec<u8> = values.into_iter().flat_map(varint).collect();
    field(number, &payload)
}

/// As in a map: ids in steps of a few, positions a little apart, and tags on
/// one node in eight.
fn dense_nodes(len: usize) -> Vec<u8> {
    let len = len - AROUND;
    let (mut ids, mut lats, mut lons, mut keys_vals) = (vec![], vec![], vec![], vec![]);
    let mut node = 0i64;
    while ids.len() + lats.len() + lons.len() + keys_vals.len() + 32 < len {
        ids.extend(varint(zigzag(1 + node % 5)));
        lats.extend(varint(zigzag(node * 37 % 4000 - 2000)));
        lons.extend(varint(zigzag(node * 53 % 6000 - 3000)));
        keys_vals.extend_from_slice(if node % 8 == 0 { &[1, 2, 0] } else { &[0] });
        node += 1;
    }
    let columns = [(1, ids), (8, lats), (9, lons), (10, keys_vals)];
    let message: Vec<u8> = columns.iter().flat_map(|(n, c)| field(*n, c)).collect();
    field(2, &field(2, &message))
}

/// Of two tags and ten references.
fn ways(len: usize) -> Vec<u8> {
    repeated(len, |id| {
        let refs = (0..10).map(|at| zigzag(if at == 0 { id as i64 } else { at % 3 - 1 }));
        let tags = [field(2, &[1, 4]), field(3, &[2, 5])].concat();
        let way = [vec![0x08], varint(id), tags, column(8, refs)];
        field(3, &way.concat())
    })
}

/// Of one tag and eight members.
fn relations(len: usize) -> Vec<u8> {
    repeated(len, |id| {
        let memids = (0..8).map(|at| zigzag(id as i64 % 1000 - at));
        let tags = [field(2, &[1]), field(3, &[2])].concat();
        let relation = [
            vec![0x08],
            varint(id),
            tags,
            field(8, &[3, 0, 3, 3, 0, 0, 3, 3]),
            column(9, memids),
            field(10, &[0, 1, 2, 1, 1, 0, 0, 1]),
        ];
        field(4, &relation.concat())
    })
}

/// Two bytes an element: as many as a block can have.
fn empty_relations(len: usize) -> Vec<u8> {
    field(2, &[0x22, 0x00].repeat((len - AROUND) / 2))
}

/// A group for each: a way with nothing but its id.
fn one_way_groups(len: usize) -> Vec<u8> {
    let group = field(2, &field(3, &[0x08, 0x07]));
    group.repeat(len / group.len())
}

/// A group of messages with ids from 1 on, up to the length.
fn repeated(len: usize, message: impl Fn(u64) -> Vec<u8>) -> Vec<u8> {
    let len = len - AROUND;
    let mut group = Vec::with_capacity(len);
    for id in 1.. {
        let message = message(id);
        if group.len() + message.len() > len {
            break;
        }
        group.extend(message);
    }
    field(2, &group)
}
