//! The six message views: each one decides by the pair of field number and
//! wire type and skips any other pair. A view takes a range of the buffer (14
//! where it passes it) and gives positions counted from the buffer's start.

use crate::column::{boolean, int32, int64, sint64};
use crate::number::{Refusal, SECOND_COLUMN, SECOND_INFO};
use crate::part::{range_end, Part};
use crate::wire::{for_each_field, Field, LEN, VARINT};

/// A loose node.
#[derive(Clone, Copy, Debug, Default, PartialEq, Eq)]
pub struct Node {
    pub id: i64,
    pub keys: Part,
    pub vals: Part,
    pub info: Part,
    pub lat: i64,
    pub lon: i64,
}

/// A way. Its positions and pins are found but not walked.
#[derive(Clone, Copy, Debug, Default, PartialEq, Eq)]
pub struct Way {
    pub id: i64,
    pub keys: Part,
    pub vals: Part,
    pub info: Part,
    pub refs: Part,
    pub lats: Part,
    pub lons: Part,
    pub pins: Part,
}

/// A relation.
#[derive(Clone, Copy, Debug, Default, PartialEq, Eq)]
pub struct Relation {
    pub id: i64,
    pub keys: Part,
    pub vals: Part,
    pub info: Part,
    pub roles: Part,
    pub memids: Part,
    pub types: Part,
}

/// A dense message.
#[derive(Clone, Copy, Debug, Default, PartialEq, Eq)]
pub struct DenseNodes {
    pub ids: Part,
    pub info: Part,
    pub lats: Part,
    pub lons: Part,
    pub keys_vals: Part,
}

/// The info columns of a dense message.
#[derive(Clone, Copy, Debug, Default, PartialEq, Eq)]
pub struct DenseInfo {
    pub versions: Part,
    pub timestamps: Part,
    pub changesets: Part,
    pub uids: Part,
    pub user_sids: Part,
    pub visibles: Part,
}

/// The info of a node, way or relation.
#[derive(Clone, Copy, Debug, Default, PartialEq, Eq)]
pub struct Info {
    pub version: Option<i32>,
    pub timestamp: Option<i64>,
    pub changeset: Option<i64>,
    pub uid: Option<i32>,
    pub user_sid: Option<i32>,
    pub visible: Option<bool>,
}

impl Node {
    pub fn read(buffer: &[u8], start: usize, len: usize) -> Result<Node, Refusal> {
        let mut node = Node::default();
        read_message(buffer, start, len, |f| {
            match (f.tag.field, f.tag.wire) {
                (1, VARINT) => node.id = sint64(f.value),
                (2, VARINT | LEN) => take_column(&mut node.keys, f)?,
                (3, VARINT | LEN) => take_column(&mut node.vals, f)?,
                (4, LEN) => take_info(&mut node.info, f)?,
                (8, VARINT) => node.lat = sint64(f.value),
                (9, VARINT) => node.lon = sint64(f.value),
                _ => {}
            }
            Ok(())
        })?;
        Ok(node)
    }
}

impl Way {
    pub fn read(buffer: &[u8], start: usize, len: usize) -> Result<Way, Refusal> {
        let mut way = Way::default();
        read_message(buffer, start, len, |f| {
            match (f.tag.field, f.tag.wire) {
                (1, VARINT) => way.id = int64(f.value),
                (2, VARINT | LEN) => take_column(&mut way.keys, f)?,
                (3, VARINT | LEN) => take_column(&mut way.vals, f)?,
                (4, LEN) => take_info(&mut way.info, f)?,
                (8, VARINT | LEN) => take_column(&mut way.refs, f)?,
                (9, VARINT | LEN) => take_column(&mut way.lats, f)?,
                (10, VARINT | LEN) => take_column(&mut way.lons, f)?,
                (20, LEN) => way.pins = Part::at(f.start, f.len),
                _ => {}
            }
            Ok(())
        })?;
        Ok(way)
    }
}

impl Relation {
    pub fn read(buffer: &[u8], start: usize, len: usize) -> Result<Relation, Refusal> {
        let mut relation = Relation::default();
        read_message(buffer, start, len, |f| {
            match (f.tag.field, f.tag.wire) {
                (1, VARINT) => relation.id = int64(f.value),
                (2, VARINT | LEN) => take_column(&mut relation.keys, f)?,
                (3, VARINT | LEN) => take_column(&mut relation.vals, f)?,
                (4, LEN) => take_info(&mut relation.info, f)?,
                (8, VARINT | LEN) => take_column(&mut relation.roles, f)?,
                (9, VARINT | LEN) => take_column(&mut relation.memids, f)?,
                (10, VARINT | LEN) => take_column(&mut relation.types, f)?,
                _ => {}
            }
            Ok(())
        })?;
        Ok(relation)
    }
}

impl DenseNodes {
    pub fn read(buffer: &[u8], start: usize, len: usize) -> Result<DenseNodes, Refusal> {
        let mut dense = DenseNodes::default();
        read_message(buffer, start, len, |f| {
            match (f.tag.field, f.tag.wire) {
                (1, VARINT | LEN) => take_column(&mut dense.ids, f)?,
                (5, LEN) => take_info(&mut dense.info, f)?,
                (8, VARINT | LEN) => take_column(&mut dense.lats, f)?,
                (9, VARINT | LEN) => take_column(&mut dense.lons, f)?,
                (10, VARINT | LEN) => take_column(&mut dense.keys_vals, f)?,
                _ => {}
            }
            Ok(())
        })?;
        Ok(dense)
    }
}

impl DenseInfo {
    pub fn read(buffer: &[u8], start: usize, len: usize) -> Result<DenseInfo, Refusal> {
        let mut info = DenseInfo::default();
        read_message(buffer, start, len, |f| {
            match (f.tag.field, f.tag.wire) {
                (1, VARINT | LEN) => take_column(&mut info.versions, f)?,
                (2, VARINT | LEN) => take_column(&mut info.timestamps, f)?,
                (3, VARINT | LEN) => take_column(&mut info.changesets, f)?,
                (4, VARINT | LEN) => take_column(&mut info.uids, f)?,
                (5, VARINT | LEN) => take_column(&mut info.user_sids, f)?,
                (6, VARINT | LEN) => take_column(&mut info.visibles, f)?,
                _ => {}
            }
            Ok(())
        })?;
        Ok(info)
    }
}

impl Info {
    pub fn read(buffer: &[u8], start: usize, len: usize) -> Result<Info, Refusal> {
        let mut info = Info::default();
        read_message(buffer, start, len, |f| {
            match (f.tag.field, f.tag.wire) {
                (1, VARINT) => info.version = Some(int32(f.value)).filter(|&v| v != -1),
                (2, VARINT) => info.timestamp = Some(int64(f.value)),
                (3, VARINT) => info.changeset = Some(int64(f.value)).filter(|&c| c != -1),
                (4, VARINT) => info.uid = Some(int32(f.value)),
                (5, VARINT) => info.user_sid = Some(int32(f.value)),
                (6, VARINT) => info.visible = Some(boolean(f.value)),
                _ => {}
            }
            Ok(())
        })?;
        Ok(info)
    }
}

/// The fields of the message in a range of the buffer.
fn read_message(
    buffer: &[u8],
    start: usize,
    len: usize,
    visit: impl FnMut(Field) -> Result<(), Refusal>,
) -> Result<(), Refusal> {
    let end = range_end(buffer.len(), start, len)?;
    for_each_field(&buffer[..end], start, visit)
}

/// An occurrence of a column: the payload of a type 2, the raw bytes of a type
/// 0. Empty ones are ignored, a second non-empty one is refused.
fn take_column(column: &mut Part, f: Field) -> Result<(), Refusal> {
    if f.len == 0 {
        return Ok(());
    }
    if column.present {
        return Err(SECOND_COLUMN);
    }
    *column = Part::at(f.start, f.len);
    Ok(())
}

/// An occurrence of Info or DenseInfo. An empty one may be followed by a full
/// one, which then stays; of empty ones alone the last one's place is kept.
fn take_info(info: &mut Part, f: Field) -> Result<(), Refusal> {
    match (info.len, f.len) {
        (0, _) => *info = Part::at(f.start, f.len),
        (_, 0) => {}
        _ => return Err(SECOND_INFO),
    }
    Ok(())
}
