//! The check composed of the published parsers, in document 01's order. The
//! check is added, so the Rust has none; but each part that it reads has a
//! parser there, and this puts them in the order of section 4.

use published::read::wire::{
    WireDenseInfo, WireDenseNodes, WireGroup, WireInfo, WireNode, WireRelation, WireWay,
};
use published::{Cursor, Opened, PackedSint64Iter, Refused, caught, refused};

type Verdict = Result<(), Refused>;

/// The number of the scan or the check, 0 for an accepted block.
pub fn verdict(bytes: &[u8]) -> String {
    match Opened::scan(bytes).and_then(|opened| check(&opened)) {
        Ok(()) => "0".to_string(),
        Err(why) => why.to_string(),
    }
}

fn check(opened: &Opened) -> Verdict {
    let block = opened.block();
    (0..block.group_count()).try_for_each(|index| check_group(&WireGroup::new(block.group(index))))
}

fn check_group(group: &WireGroup<'_>) -> Verdict {
    if let Some(data) = group.dense().map_err(refused)? {
        check_dense(&WireDenseNodes::parse(data).map_err(refused)?)?;
    }
    for data in group.nodes() {
        let node = WireNode::parse(data).map_err(refused)?;
        info_and_tags(node.info_data, node.keys_data, node.vals_data)?;
    }
    for data in group.ways() {
        let way = WireWay::parse(data).map_err(refused)?;
        info_and_tags(way.info_data, way.keys_data, way.vals_data)?;
        count(way.refs_data)?;
    }
    for data in group.relations() {
        let relation = WireRelation::parse(data).map_err(refused)?;
        info_and_tags(relation.info_data, relation.keys_data, relation.vals_data)?;
        same_counts(&[
            relation.roles_sid_data,
            relation.memids_data,
            relation.types_data,
        ])?;
    }
    Ok(())
}

fn check_dense(dense: &WireDenseNodes<'_>) -> Verdict {
    let info = WireDenseInfo::parse(dense.info_data.unwrap_or(&[])).map_err(refused)?;
    let nodes = same_counts(&[dense.id_data, dense.lat_data, dense.lon_data])?;
    walk_keys_vals(dense.keys_vals_data, nodes)?;
    let core = [info.version_data, info.timestamp_data, info.changeset_data];
    let rest = [info.uid_data, info.user_sid_data, info.visible_data];
    core.into_iter()
        .chain(rest)
        .try_for_each(|column| count(column).map(|_| ()))
}

/// As the dense walk reads it: pairs up to a key 0 or the end, node by node.
fn walk_keys_vals(data: &[u8], nodes: usize) -> Verdict {
    let mut cursor = Cursor::new(data);
    for _ in 0..nodes {
        while !cursor.is_empty() && cursor.read_varint().map_err(refused)? != 0 {
            cursor.read_varint().map_err(refused)?;
        }
    }
    Ok(())
}

fn info_and_tags(info: Option<&[u8]>, keys: &[u8], vals: &[u8]) -> Verdict {
    WireInfo::parse(info.unwrap_or(&[])).map_err(refused)?;
    same_counts(&[keys, vals]).map(|_| ())
}

/// Each column is read to its end before the counts are compared.
fn same_counts(columns: &[&[u8]]) -> Result<usize, Refused> {
    let counts: Vec<usize> = columns
        .iter()
        .map(|column| count(column))
        .collect::<Result<_, _>>()?;
    if counts.iter().any(|&count| count != counts[0]) {
        return Err(Refused::Number(12));
    }
    Ok(counts[0])
}

fn count(column: &[u8]) -> Result<usize, Refused> {
    caught(|| PackedSint64Iter::new(column).count())
}
