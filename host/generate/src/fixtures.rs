//! Five good blocks of fixed content, for the shapes that common writers never
//! make: loose and dense nodes in one group, several groups of every kind,
//! ways beside relations, unknown member types, absent columns, metadata that
//! ends before the dense nodes do.

use crate::encode::{deltas, zigzag};
use crate::model::{Block, Common, Dense, Group, Node, Relation, Way};
use crate::spell::spell_plain;

/// The five blocks with their names.
pub fn fixtures() -> Vec<(&'static str, Vec<u8>)> {
    vec![
        (
            "loose and dense nodes in one group",
            spell(vec![loose_and_dense()]),
        ),
        ("several groups of every kind", spell(several_groups())),
        ("ways beside relations, then nodes", spell(shared_groups())),
        ("absent columns", spell(absent_columns())),
        ("metadata of some dense nodes", spell(some_metadata())),
    ]
}

fn spell(groups: Vec<Group>) -> Vec<u8> {
    let strings = ["", "k", "v", "outer", ""];
    let strings = strings.iter().map(|s| s.as_bytes().to_vec()).collect();
    spell_plain(&Block {
        strings,
        groups,
        ..Block::default()
    })
}

fn loose_and_dense() -> Group {
    let mut first = node(5, (100, -100), &[(1, 2)]);
    first.common.info = Some([Some(2), Some(7), Some(9), Some(3), Some(3), None]);
    Group {
        nodes: vec![first, node(2, (-50, 70), &[])],
        dense: Some(dense(
            &[(10, 1, 1), (3, 2, -2), (-4, 0, 0)],
            &[1, 2, 0, 0, 0],
        )),
        ..Group::default()
    }
}

fn several_groups() -> Vec<Group> {
    vec![
        Group {
            dense: Some(dense(&[(7, 5, 5), (8, 6, 6)], &[])),
            ..Group::default()
        },
        Group {
            nodes: vec![node(1, (9, 9), &[(1, 2)])],
            ways: vec![way(20, &[7, 8, 1]), way(21, &[-3, 9])],
            ..Group::default()
        },
        Group {
            relations: vec![
                relation(30, &[(3, 8, 0), (3, 21, 1), (0, 30, 2)]),
                relation(31, &[(3, 5, 7), (3, 99, 0)]),
            ],
            ..Group::default()
        },
        Group::default(),
    ]
}

fn shared_groups() -> Vec<Group> {
    vec![
        Group {
            ways: vec![way(40, &[1, -2, 3]), way(-41, &[5])],
            relations: vec![
                relation(50, &[(3, 40, 1), (0, -6, 0), (3, 51, 2)]),
                relation(51, &[(0, 7, 9)]),
            ],
            ..Group::default()
        },
        Group {
            nodes: vec![node(-9, (1, 1), &[])],
            dense: Some(dense(&[(11, 1, 1), (12, 2, 2)], &[])),
            ways: vec![way(42, &[11, 12])],
            ..Group::default()
        },
    ]
}

fn absent_columns() -> Vec<Group> {
    let only_id = |id| Common {
        id: Some(id),
        ..Common::default()
    };
    vec![
        Group {
            dense: Some(Dense::default()),
            ..Group::default()
        },
        Group {
            ways: vec![Way {
                common: only_id(43),
                ..Way::default()
            }],
            relations: vec![Relation {
                common: only_id(53),
                ..Relation::default()
            }],
            ..Group::default()
        },
    ]
}

/// Two rows of metadata for three nodes, and one of visible.
fn some_metadata() -> Vec<Group> {
    let mut nodes = dense(&[(7, 5, 5), (9, 6, -6), (300, 7, 7)], &[0, 1, 2, 0]);
    nodes.info = Some([
        vec![3, 1],
        deltas(&[1_500_000_000, 1_500_000_007]),
        deltas(&[40, 20]),
        deltas(&[8, -1]),
        deltas(&[1, 3]),
        vec![0],
    ]);
    let mut way = way(20, &[7, 9]);
    way.common.info = Some([Some(2), None, Some(9), None, Some(3), Some(1)]);
    vec![Group {
        dense: Some(nodes),
        ways: vec![way],
        ..Group::default()
    }]
}

fn node(id: i64, (lat, lon): (i64, i64), tags: &[(u64, u64)]) -> Node {
    Node {
        common: common(zigzag(id), tags),
        lat: Some(zigzag(lat)),
        lon: Some(zigzag(lon)),
    }
}

fn dense(nodes: &[(i64, i64, i64)], keys_vals: &[u64]) -> Dense {
    let column =
        |take: fn(&(i64, i64, i64)) -> i64| deltas(&nodes.iter().map(take).collect::<Vec<_>>());
    Dense {
        ids: column(|n| n.0),
        lats: column(|n| n.1),
        lons: column(|n| n.2),
        keys_vals: keys_vals.to_vec(),
        info: None,
    }
}

/// Each way of the fixtures has the one tag k = v.
fn way(id: i64, refs: &[i64]) -> Way {
    Way {
        common: common(id as u64, &[(1, 2)]),
        refs: deltas(refs),
        ..Way::default()
    }
}

/// Members are role, id and raw type.
fn relation(id: i64, members: &[(u64, i64, u64)]) -> Relation {
    let ids: Vec<i64> = members.iter().map(|m| m.1).collect();
    Relation {
        common: common(id as u64, &[]),
        roles: members.iter().map(|m| m.0).collect(),
        memids: deltas(&ids),
        types: members.iter().map(|m| m.2).collect(),
    }
}

fn common(id: u64, tags: &[(u64, u64)]) -> Common {
    Common {
        id: Some(id),
        keys: tags.iter().map(|t| t.0).collect(),
        vals: tags.iter().map(|t| t.1).collect(),
        info: None,
    }
}
