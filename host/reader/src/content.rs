//! The content of a block, the other side of the equality of listings: stored
//! values where the listing has running sums, group by group, from the block's
//! bytes alone. As for the listing, only an accepted block has one.

use crate::column::sint64;
use crate::group::{dense_pass, NODE, RELATION, WAY};
use crate::number::Refusal;
use crate::part::Part;
use crate::source::{same_count, Source, TagText};
use crate::views::{DenseNodes, Node, Relation, Way};

/// Granularity, offsets and the groups; their number is the list's length.
#[derive(Clone, Debug, PartialEq, Eq)]
pub struct Content<'a> {
    pub granularity: i32,
    pub lat_offset: i64,
    pub lon_offset: i64,
    pub groups: Vec<GroupContent<'a>>,
}

/// One group. A missing dense message gives no values, as an empty one does.
#[derive(Clone, Debug, PartialEq, Eq)]
pub struct GroupContent<'a> {
    pub dense: DenseContent<'a>,
    pub nodes: Vec<NodeContent<'a>>,
    pub ways: Vec<WayContent<'a>>,
    pub relations: Vec<RelationContent<'a>>,
}

/// Stored differences of dense ids and positions, and the shown tags per node.
#[derive(Clone, Debug, PartialEq, Eq)]
pub struct DenseContent<'a> {
    pub ids: Vec<i64>,
    pub lats: Vec<i64>,
    pub lons: Vec<i64>,
    pub tags: Vec<Vec<TagText<'a>>>,
}

/// A loose node, its position as stored.
#[derive(Clone, Debug, PartialEq, Eq)]
pub struct NodeContent<'a> {
    pub id: i64,
    pub lat: i64,
    pub lon: i64,
    pub tags: Vec<TagText<'a>>,
}

/// A way with the stored differences of its references.
#[derive(Clone, Debug, PartialEq, Eq)]
pub struct WayContent<'a> {
    pub id: i64,
    pub tags: Vec<TagText<'a>>,
    pub refs: Vec<i64>,
}

/// A relation with the stored differences of its member ids.
#[derive(Clone, Debug, PartialEq, Eq)]
pub struct RelationContent<'a> {
    pub id: i64,
    pub tags: Vec<TagText<'a>>,
    pub roles: Vec<Option<&'a [u8]>>,
    pub memids: Vec<i64>,
    pub types: Vec<i32>,
}

/// The content of a block.
pub fn content(block: &[u8]) -> Result<Content<'_>, Refusal> {
    let source = Source::read(block)?;
    let groups = source
        .groups
        .iter()
        .map(|&group| group_content(&source, group));
    Ok(Content {
        granularity: source.fields.granularity,
        lat_offset: source.fields.lat_offset,
        lon_offset: source.fields.lon_offset,
        groups: groups.collect::<Result<_, _>>()?,
    })
}

fn group_content<'a>(source: &Source<'a>, group: Part) -> Result<GroupContent<'a>, Refusal> {
    let dense = dense_pass(source.block, group.start, group.len)?;
    Ok(GroupContent {
        dense: dense_content(source, dense)?,
        nodes: each(source, group, NODE, node_content)?,
        ways: each(source, group, WAY, way_content)?,
        relations: each(source, group, RELATION, relation_content)?,
    })
}

/// The contents of all messages of one field.
fn each<'a, T>(
    source: &Source<'a>,
    group: Part,
    field: u32,
    read: fn(&Source<'a>, Part) -> Result<T, Refusal>,
) -> Result<Vec<T>, Refusal> {
    source
        .messages(group, field)?
        .into_iter()
        .map(|m| read(source, m))
        .collect()
}

fn dense_content<'a>(source: &Source<'a>, message: Part) -> Result<DenseContent<'a>, Refusal> {
    let dense = DenseNodes::read(source.block, message.start, message.len)?;
    let ids = source.stored(dense.ids, sint64)?;
    let lats = source.stored(dense.lats, sint64)?;
    let lons = source.stored(dense.lons, sint64)?;
    same_count(&ids, &lats, &lons)?;
    let tags = source.dense_tags(dense.keys_vals, ids.len())?;
    Ok(DenseContent {
        ids,
        lats,
        lons,
        tags,
    })
}

fn node_content<'a>(source: &Source<'a>, message: Part) -> Result<NodeContent<'a>, Refusal> {
    let node = Node::read(source.block, message.start, message.len)?;
    let tags = source.tags(node.keys, node.vals)?;
    Ok(NodeContent {
        id: node.id,
        lat: node.lat,
        lon: node.lon,
        tags,
    })
}

fn way_content<'a>(source: &Source<'a>, message: Part) -> Result<WayContent<'a>, Refusal> {
    let way = Way::read(source.block, message.start, message.len)?;
    let tags = source.tags(way.keys, way.vals)?;
    Ok(WayContent {
        id: way.id,
        tags,
        refs: source.stored(way.refs, sint64)?,
    })
}

fn relation_content<'a>(
    source: &Source<'a>,
    message: Part,
) -> Result<RelationContent<'a>, Refusal> {
    let relation = Relation::read(source.block, message.start, message.len)?;
    let tags = source.tags(relation.keys, relation.vals)?;
    let stored = source.members(&relation)?;
    Ok(RelationContent {
        id: relation.id,
        tags,
        roles: stored.roles.iter().map(|&role| source.role(role)).collect(),
        memids: stored.memids,
        types: stored.types,
    })
}
