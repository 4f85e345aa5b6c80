//! Blocks of the fixed list about the order in which the check reads. Most
//! have two things wrong, so that the answer tells which one is met first;
//! some have one in bytes that are not read, and are accepted.

use generate::encode::{len_field, varint_field};

/// Bytes that end inside a varint (2), ten with the top bit set (3), and a
/// column of one value.
const CUT: &[u8] = &[0x80];
const LONG: &[u8] = &[0xff; 10];
const ONE: &[u8] = &[2];
const NONE: &[u8] = &[];

/// The groups of a block, the fields of a group, and those of an element.
const GROUP: u32 = 2;
const NODE: u32 = 1;
const DENSE: u32 = 2;
const WAY: u32 = 3;
const RELATION: u32 = 4;
const KEYS: u32 = 2;
const VALS: u32 = 3;
const INFO: u32 = 4;
/// References of a way, roles of a relation; then the two behind them, which
/// in a way are positions.
const REFS: u32 = 8;
const ROLES: u32 = 8;
const MEMIDS: u32 = 9;
const TYPES: u32 = 10;
const WAY_POSITIONS: [u32; 2] = [9, 10];
/// Fields of a dense message, whose positions have those of a node.
const IDS: u32 = 1;
const DENSE_INFO: u32 = 5;
const LATS: u32 = 8;
const LONS: u32 = 9;
const KEYS_VALS: u32 = 10;
const DENSE_INFO_COLUMNS: [u32; 6] = [1, 2, 3, 4, 5, 6];

/// A field with bytes, which is left out where there are none.
type Field<'a> = (u32, &'a [u8]);

pub fn blocks() -> Vec<Vec<u8>> {
    let mut groups = kinds();
    let mut each_alone = |field, messages: Vec<Vec<u8>>| {
        groups.extend(messages.iter().map(|message| len_field(field, message)));
    };
    for kind in [NODE, WAY, RELATION] {
        each_alone(kind, tags());
    }
    each_alone(WAY, ways());
    each_alone(RELATION, relations());
    each_alone(DENSE, dense_columns());
    each_alone(DENSE, dense_infos());
    let alone = groups.iter().map(|group| len_field(GROUP, group));
    alone.chain(several_groups()).collect()
}

fn message(fields: &[Field]) -> Vec<u8> {
    let present = fields.iter().filter(|(_, bytes)| !bytes.is_empty());
    present
        .flat_map(|(field, bytes)| len_field(*field, bytes))
        .collect()
}

/// What nodes, ways and relations have in common: the message, its Info, keys
/// and vals to their ends, and then their counts.
fn tags() -> Vec<Vec<u8>> {
    let bad_info: &[u8] = &[0x0d];
    let twice: &[u8] = &[0x08, 0x01];
    [
        &[(KEYS, ONE), (VALS, NONE)][..],
        &[(KEYS, &[1, 2]), (VALS, CUT)],
        &[(KEYS, NONE), (VALS, LONG)],
        &[(KEYS, LONG), (VALS, CUT)],
        &[(KEYS, ONE), (INFO, bad_info)],
        &[(KEYS, CUT), (INFO, bad_info)],
        &[(INFO, bad_info), (KEYS, ONE), (KEYS, ONE)],
        &[(VALS, CUT), (INFO, twice), (INFO, twice)],
    ]
    .map(message)
    .to_vec()
}

/// References come behind the counts of keys and vals. Positions are found
/// and not read.
fn ways() -> Vec<Vec<u8>> {
    let mut ways = vec![
        message(&[(REFS, CUT)]),
        message(&[(REFS, LONG)]),
        message(&[(KEYS, ONE), (REFS, CUT)]),
        message(&[(KEYS, ONE), (VALS, LONG), (REFS, CUT)]),
    ];
    for field in WAY_POSITIONS {
        let twice_as_varint = [varint_field(field, 0), varint_field(field, 0)].concat();
        ways.extend([
            message(&[(field, CUT)]),
            message(&[(field, &[2, 0xff])]),
            message(&[(field, LONG), (REFS, ONE)]),
            message(&[(field, ONE), (field, CUT)]),
            [
                len_field(field, NONE),
                len_field(field, CUT),
                len_field(field, NONE),
            ]
            .concat(),
            twice_as_varint,
        ]);
    }
    ways
}

/// Roles, memids and types to their ends, and then their counts, all behind
/// those of keys and vals.
fn relations() -> Vec<Vec<u8>> {
    let members =
        |roles, memids, types| message(&[(ROLES, roles), (MEMIDS, memids), (TYPES, types)]);
    vec![
        members(ONE, NONE, NONE),
        members(NONE, ONE, NONE),
        members(NONE, NONE, ONE),
        members(ONE, ONE, NONE),
        members(ONE, NONE, ONE),
        members(NONE, ONE, ONE),
        members(ONE, NONE, CUT),
        members(NONE, ONE, LONG),
        members(NONE, LONG, CUT),
        members(CUT, LONG, NONE),
        message(&[(KEYS, ONE), (ROLES, CUT)]),
        message(&[(KEYS, ONE), (VALS, CUT), (ROLES, LONG)]),
    ]
}

/// Ids, lats and lons to their ends, their counts, then as much of keys_vals
/// as the nodes take.
fn dense_columns() -> Vec<Vec<u8>> {
    let columns = |ids, lats, lons| message(&[(IDS, ids), (LATS, lats), (LONS, lons)]);
    let mut found = vec![
        columns(ONE, NONE, NONE),
        columns(NONE, ONE, NONE),
        columns(NONE, NONE, ONE),
        columns(&[2, 2], ONE, CUT),
        columns(NONE, ONE, LONG),
        columns(ONE, LONG, CUT),
        columns(CUT, LONG, NONE),
        message(&[(IDS, ONE), (KEYS_VALS, CUT)]),
    ];
    let keys_vals: [&[u8]; 9] = [
        &[1],
        CUT,
        LONG,
        &[1, 0x80],
        &[1, 2, 0x80],
        &[0, 0x80],
        &[1, 2, 0, 0x80],
        &[1, 2, 0, 1],
        &[&[1, 2, 0], LONG].concat(),
    ];
    found.extend(keys_vals.map(|column| [one_node(), message(&[(KEYS_VALS, column)])].concat()));
    found
}

/// A dense message of one node.
fn one_node() -> Vec<u8> {
    message(&[(IDS, ONE), (LATS, ONE), (LONS, ONE)])
}

/// DenseInfo is read behind its message and before the ids, its columns at
/// the very end, whether there are nodes or not.
fn dense_infos() -> Vec<Vec<u8>> {
    let info = |fields: &[Field]| len_field(DENSE_INFO, &message(fields));
    let mut found = vec![
        [info(&[(1, ONE), (1, ONE)]), message(&[(IDS, CUT)])].concat(),
        [info(&[(1, ONE)]), info(&[(1, CUT)]), message(&[(IDS, CUT)])].concat(),
        [info(&[(1, LONG), (2, CUT)]), one_node()].concat(),
        [info(&[(5, CUT), (6, LONG)]), one_node()].concat(),
    ];
    for column in DENSE_INFO_COLUMNS {
        let cut = info(&[(column, &[2, 0x80])]);
        let long = info(&[(column, LONG)]);
        let key_alone = message(&[(KEYS_VALS, &[1])]);
        found.extend([
            cut.clone(),
            [one_node(), cut.clone()].concat(),
            [cut, message(&[(IDS, ONE)])].concat(),
            [long, one_node(), key_alone].concat(),
        ]);
    }
    found
}

/// A relation of one member, in a group.
fn good_relation() -> Vec<u8> {
    let columns = [(ROLES, ONE), (MEMIDS, ONE), (TYPES, ONE)];
    len_field(RELATION, &message(&columns))
}

/// Groups whose elements stand in another order than they are read in: the
/// fields of the group, the dense message, nodes, ways, relations.
fn kinds() -> Vec<Vec<u8>> {
    let relation = len_field(RELATION, &message(&[(ROLES, ONE)]));
    let way = len_field(WAY, &message(&[(REFS, CUT)]));
    let node = len_field(NODE, &message(&[(KEYS, ONE), (KEYS, ONE)]));
    let dense = len_field(DENSE, &message(&[(IDS, LONG)]));
    vec![
        [&good_relation()[..], &relation].concat(),
        [&relation[..], &way].concat(),
        [&relation[..], &way, &node].concat(),
        [&relation[..], &way, &node, &dense].concat(),
        [&relation[..], &way, &node, &dense, &dense].concat(),
        [&relation[..], &way, &node, &dense, &[0x07]].concat(),
    ]
}

/// Something wrong in a group behind another one.
fn several_groups() -> Vec<Vec<u8>> {
    let groups = |groups: &[&[u8]]| {
        groups
            .iter()
            .flat_map(|group| len_field(GROUP, group))
            .collect()
    };
    let counts = len_field(RELATION, &message(&[(ROLES, ONE), (TYPES, ONE)]));
    let cut = len_field(WAY, &message(&[(REFS, CUT)]));
    let two_dense = [len_field(DENSE, NONE), len_field(DENSE, NONE)].concat();
    vec![
        groups(&[&good_relation(), &counts]),
        groups(&[&cut, &counts]),
        groups(&[&counts, &two_dense]),
        groups(&[NONE, &good_relation(), &[0x07]]),
        groups(&[&cut, &[0x07]]),
    ]
}
