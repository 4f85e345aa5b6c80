//! The walks over one element's tags, references and members. Each has a state
//! by value that starts at the element; a step on an ended state says ended
//! before any test, then record and state are tested (14).

use crate::answer::{answer, Answer};
use crate::column::{int32, sint64, uint32, Column};
use crate::number::{Refusal, COUNTS_DIFFER, OUTSIDE};
use crate::part::Part;
use crate::scan::{get, Got, Record};
use crate::views::{Relation, Way};

/// A tag as it is stored: the numbers of its two strings.
#[derive(Clone, Copy, Debug, PartialEq, Eq)]
pub struct RawTag {
    pub key: u64,
    pub val: u64,
}

/// A shown tag: its numbers, and the places of its two strings.
#[derive(Clone, Copy, Debug, PartialEq, Eq)]
pub struct ShownTag {
    pub raw: RawTag,
    pub key: Part,
    pub val: Part,
}

/// Over the tags of a node, way or relation.
#[derive(Clone, Copy, Debug, PartialEq, Eq)]
pub enum Tags {
    Ended,
    At { keys: Column, vals: Column },
}

/// Over the tags of a dense node.
#[derive(Clone, Copy, Debug, PartialEq, Eq)]
pub enum DenseTags {
    Ended,
    At { pairs: Column },
}

/// Over the references of a way; the running sum starts at 0.
#[derive(Clone, Copy, Debug, PartialEq, Eq)]
pub enum Refs {
    Ended,
    At { refs: Column, sum: i64 },
}

/// Over the members of a relation; the running sum starts at 0.
#[derive(Clone, Copy, Debug, PartialEq, Eq)]
pub enum Members {
    Ended,
    At {
        roles: Column,
        memids: Column,
        types: Column,
        sum: i64,
    },
}

/// A member: its role number and its id.
#[derive(Clone, Copy, Debug, PartialEq, Eq)]
pub struct Member {
    pub role: i32,
    pub id: MemberId,
}

/// One of four cases; each holds the running sum of memids.
#[derive(Clone, Copy, Debug, PartialEq, Eq)]
pub enum MemberId {
    Node(i64),
    Way(i64),
    Relation(i64),
    /// The raw type, then the id.
    Unknown(i32, i64),
}

impl MemberId {
    /// The case that a raw type names.
    pub fn of(raw_type: i32, id: i64) -> MemberId {
        match raw_type {
            0 => MemberId::Node(id),
            1 => MemberId::Way(id),
            2 => MemberId::Relation(id),
            other => MemberId::Unknown(other, id),
        }
    }
}

impl Tags {
    /// At the first tag of an element with these two columns.
    pub fn of(keys: Part, vals: Part) -> Tags {
        Tags::At {
            keys: Column::of(keys),
            vals: Column::of(vals),
        }
    }
}

impl DenseTags {
    /// At the first tag of a dense node whose pairs keys_vals begins with.
    pub fn of(pairs: Column) -> DenseTags {
        DenseTags::At { pairs }
    }
}

impl Refs {
    pub fn of(way: &Way) -> Refs {
        Refs::At {
            refs: Column::of(way.refs),
            sum: 0,
        }
    }
}

impl Members {
    pub fn of(relation: &Relation) -> Members {
        Members::At {
            roles: Column::of(relation.roles),
            memids: Column::of(relation.memids),
            types: Column::of(relation.types),
            sum: 0,
        }
    }
}

/// The next shown tag: key, value, then 12, then both strings. The list ends
/// at the first pair with a number past the table.
pub fn tags_step(buffer: &[u8], record: &Record, tags: Tags) -> (Answer<ShownTag>, Tags) {
    let Tags::At { keys, vals } = tags else {
        return (Answer::Ended, Tags::Ended);
    };
    answer(next_tag(buffer, record, keys, vals), Tags::Ended)
}

/// The next tag by its numbers alone, shown or not.
pub fn raw_tags_step(buffer: &[u8], tags: Tags) -> (Answer<RawTag>, Tags) {
    let Tags::At { keys, vals } = tags else {
        return (Answer::Ended, Tags::Ended);
    };
    answer(next_raw_tag(buffer, keys, vals), Tags::Ended)
}

fn next_tag(
    buffer: &[u8],
    record: &Record,
    keys: Column,
    vals: Column,
) -> Result<Option<(ShownTag, Tags)>, Refusal> {
    test_record(buffer, record)?;
    match next_raw_tag(buffer, keys, vals)? {
        None => Ok(None),
        Some((raw, next)) => Ok(show(buffer, record, raw)?.map(|tag| (tag, next))),
    }
}

fn next_raw_tag(
    buffer: &[u8],
    mut keys: Column,
    mut vals: Column,
) -> Result<Option<(RawTag, Tags)>, Refusal> {
    test_columns(buffer, &[keys, vals])?;
    let key = keys.next(buffer)?.map(uint32);
    let val = vals.next(buffer)?.map(uint32);
    match (key, val) {
        (None, None) => Ok(None),
        (Some(key), Some(val)) => {
            let (key, val) = (u64::from(key), u64::from(val));
            Ok(Some((RawTag { key, val }, Tags::At { keys, vals })))
        }
        _ => Err(COUNTS_DIFFER),
    }
}

/// The next shown tag of a dense node: pairs up to a key 0 or the end. A value
/// is due behind each other key, and may itself be 0.
pub fn dense_tags_step(
    buffer: &[u8],
    record: &Record,
    tags: DenseTags,
) -> (Answer<ShownTag>, DenseTags) {
    let DenseTags::At { pairs } = tags else {
        return (Answer::Ended, DenseTags::Ended);
    };
    answer(next_dense_tag(buffer, record, pairs), DenseTags::Ended)
}

/// The next tag of a dense node by its numbers alone, shown or not.
pub fn raw_dense_tags_step(buffer: &[u8], tags: DenseTags) -> (Answer<RawTag>, DenseTags) {
    let DenseTags::At { pairs } = tags else {
        return (Answer::Ended, DenseTags::Ended);
    };
    answer(next_raw_dense_tag(buffer, pairs), DenseTags::Ended)
}

fn next_dense_tag(
    buffer: &[u8],
    record: &Record,
    pairs: Column,
) -> Result<Option<(ShownTag, DenseTags)>, Refusal> {
    test_record(buffer, record)?;
    match next_raw_dense_tag(buffer, pairs)? {
        None => Ok(None),
        Some((raw, next)) => Ok(show(buffer, record, raw)?.map(|tag| (tag, next))),
    }
}

fn next_raw_dense_tag(
    buffer: &[u8],
    mut pairs: Column,
) -> Result<Option<(RawTag, DenseTags)>, Refusal> {
    test_columns(buffer, &[pairs])?;
    let pair = next_pair(buffer, &mut pairs)?;
    Ok(pair.map(|(key, val)| (RawTag { key, val }, DenseTags::At { pairs })))
}

/// The next pair of keys_vals, none at a key 0 (which is taken) or the end.
pub(crate) fn next_pair(buffer: &[u8], pairs: &mut Column) -> Result<Option<(u64, u64)>, Refusal> {
    match pairs.next(buffer)? {
        None | Some(0) => Ok(None),
        Some(key) => Ok(Some((key, pairs.due(buffer)?))),
    }
}

/// Both strings of a pair; 14 of either comes before none of either.
fn show(buffer: &[u8], record: &Record, raw: RawTag) -> Result<Option<ShownTag>, Refusal> {
    let key = text(get(buffer, record, raw.key))?;
    let val = text(get(buffer, record, raw.val))?;
    Ok(match (key, val) {
        (Some(key), Some(val)) => Some(ShownTag { raw, key, val }),
        _ => None,
    })
}

fn text(got: Got) -> Result<Option<Part>, Refusal> {
    match got {
        Got::Text(start, len) => Ok(Some(Part::at(start, len))),
        Got::None => Ok(None),
        Got::Refused(number) => Err(number),
    }
}

/// The next reference, the running sum.
pub fn refs_step(buffer: &[u8], refs: Refs) -> (Answer<i64>, Refs) {
    let Refs::At { refs, sum } = refs else {
        return (Answer::Ended, Refs::Ended);
    };
    answer(next_ref(buffer, refs, sum), Refs::Ended)
}

fn next_ref(buffer: &[u8], mut refs: Column, sum: i64) -> Result<Option<(i64, Refs)>, Refusal> {
    Ok(refs.next(buffer)?.map(|raw| {
        let sum = sum.wrapping_add(sint64(raw));
        (sum, Refs::At { refs, sum })
    }))
}

/// The next member: role, member id and type are read, then 12.
pub fn members_step(buffer: &[u8], record: &Record, members: Members) -> (Answer<Member>, Members) {
    let Members::At {
        roles,
        memids,
        types,
        sum,
    } = members
    else {
        return (Answer::Ended, Members::Ended);
    };
    answer(
        next_member(buffer, record, [roles, memids, types], sum),
        Members::Ended,
    )
}

fn next_member(
    buffer: &[u8],
    record: &Record,
    columns: [Column; 3],
    sum: i64,
) -> Result<Option<(Member, Members)>, Refusal> {
    test_record(buffer, record)?;
    test_columns(buffer, &columns)?;
    let [mut roles, mut memids, mut types] = columns;
    let role = roles.next(buffer)?.map(int32);
    let delta = memids.next(buffer)?.map(sint64);
    let raw_type = types.next(buffer)?.map(int32);
    match (role, delta, raw_type) {
        (None, None, None) => Ok(None),
        (Some(role), Some(delta), Some(raw_type)) => {
            let sum = sum.wrapping_add(delta);
            let member = Member {
                role,
                id: MemberId::of(raw_type, sum),
            };
            Ok(Some((
                member,
                Members::At {
                    roles,
                    memids,
                    types,
                    sum,
                },
            )))
        }
        _ => Err(COUNTS_DIFFER),
    }
}

/// Record and state come before anything else that a step tests.
fn test_record(buffer: &[u8], record: &Record) -> Result<(), Refusal> {
    inside(record.is_inside(buffer))
}

fn test_columns(buffer: &[u8], columns: &[Column]) -> Result<(), Refusal> {
    inside(columns.iter().all(|column| column.is_inside(buffer)))
}

fn inside(holds: bool) -> Result<(), Refusal> {
    if holds {
        Ok(())
    } else {
        Err(OUTSIDE)
    }
}
