//! The check of a scanned block: it reads everything that a walk could read,
//! in one fixed order, and gives the first number that it meets. What passes
//! is accepted.

use crate::answer::Answer;
use crate::column::Column;
use crate::dense::take_pairs;
use crate::group::{dense_pass, messages_step, Messages, NODE, RELATION, WAY};
use crate::number::{Refusal, COUNTS_DIFFER, OUTSIDE};
use crate::part::Part;
use crate::scan::{group, Record};
use crate::views::{DenseInfo, DenseNodes, Info, Node, Relation, Way};

/// Accepts the block or gives the first number met. The record and all group
/// table entries are tested before any group is read.
pub fn check(buffer: &[u8], record: &Record) -> Result<(), Refusal> {
    if !record.is_inside(buffer) {
        return Err(OUTSIDE);
    }
    for number in 0..record.group_count {
        group(buffer, record, number)?;
    }
    for number in 0..record.group_count {
        let (start, len) = group(buffer, record, number)?;
        check_group(buffer, start, len)?;
    }
    Ok(())
}

fn check_group(buffer: &[u8], start: usize, len: usize) -> Result<(), Refusal> {
    let dense = dense_pass(buffer, start, len)?;
    check_dense(buffer, dense)?;
    check_messages(buffer, Messages::new(NODE, start, len), check_node)?;
    check_messages(buffer, Messages::new(WAY, start, len), check_way)?;
    check_messages(buffer, Messages::new(RELATION, start, len), check_relation)
}

fn check_messages(
    buffer: &[u8],
    mut messages: Messages,
    check_one: fn(&[u8], Part) -> Result<(), Refusal>,
) -> Result<(), Refusal> {
    loop {
        let (answer, next) = messages_step(buffer, messages);
        match answer {
            Answer::Item(message) => check_one(buffer, message)?,
            Answer::Ended => return Ok(()),
            Answer::Refused(number) => return Err(number),
        }
        messages = next;
    }
}

/// Message, DenseInfo, ids, lats, lons, equal counts, keys_vals as walked,
/// then the six info columns, whose counts are their own affair.
fn check_dense(buffer: &[u8], message: Part) -> Result<(), Refusal> {
    let dense = DenseNodes::read(buffer, message.start, message.len)?;
    let info = DenseInfo::read(buffer, dense.info.start, dense.info.len)?;
    let nodes = equal_counts(buffer, &[dense.ids, dense.lats, dense.lons])?;
    let mut keys_vals = Column::of(dense.keys_vals);
    for _ in 0..nodes {
        take_pairs(buffer, &mut keys_vals)?;
    }
    for column in [info.versions, info.timestamps, info.changesets] {
        Column::of(column).count(buffer)?;
    }
    for column in [info.uids, info.user_sids, info.visibles] {
        Column::of(column).count(buffer)?;
    }
    Ok(())
}

fn check_node(buffer: &[u8], message: Part) -> Result<(), Refusal> {
    let node = Node::read(buffer, message.start, message.len)?;
    check_info_and_tags(buffer, node.info, node.keys, node.vals)
}

fn check_way(buffer: &[u8], message: Part) -> Result<(), Refusal> {
    let way = Way::read(buffer, message.start, message.len)?;
    check_info_and_tags(buffer, way.info, way.keys, way.vals)?;
    Column::of(way.refs).count(buffer)?;
    Ok(())
}

fn check_relation(buffer: &[u8], message: Part) -> Result<(), Refusal> {
    let relation = Relation::read(buffer, message.start, message.len)?;
    check_info_and_tags(buffer, relation.info, relation.keys, relation.vals)?;
    equal_counts(buffer, &[relation.roles, relation.memids, relation.types])?;
    Ok(())
}

fn check_info_and_tags(buffer: &[u8], info: Part, keys: Part, vals: Part) -> Result<(), Refusal> {
    Info::read(buffer, info.start, info.len)?;
    equal_counts(buffer, &[keys, vals])?;
    Ok(())
}

/// Reads the columns one after the other, then compares their counts.
fn equal_counts(buffer: &[u8], columns: &[Part]) -> Result<usize, Refusal> {
    let mut counts = Vec::with_capacity(columns.len());
    for &column in columns {
        counts.push(Column::of(column).count(buffer)?);
    }
    if counts.iter().any(|&count| count != counts[0]) {
        return Err(COUNTS_DIFFER);
    }
    Ok(counts[0])
}
