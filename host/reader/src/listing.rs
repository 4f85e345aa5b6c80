//! The plain listing of an accepted block, and the full one with metadata,
//! from the block's bytes alone. A block that is not accepted has no listing;
//! the number that stands there instead is the first one met here, which need
//! not be the check's.

use crate::column::{boolean, int32, sint32, sint64};
use crate::dense::DenseNodeInfo;
use crate::group::{dense_pass, NODE, RELATION, WAY};
use crate::number::Refusal;
use crate::part::Part;
use crate::source::{running_sums, same_count, Source, TagText};
use crate::subwalk::MemberId;
use crate::views::{DenseInfo, DenseNodes, Info, Node, Relation, Way};

/// Granularity, offsets, group count, and the elements in the walk's order.
#[derive(Clone, Debug, PartialEq, Eq)]
pub struct Listing<'a> {
    pub granularity: i32,
    pub lat_offset: i64,
    pub lon_offset: i64,
    pub group_count: u64,
    pub elements: Vec<Listed<'a>>,
}

/// The four kinds of elements.
#[derive(Clone, Copy, Debug, PartialEq, Eq)]
pub enum Kind {
    DenseNode,
    Node,
    Way,
    Relation,
}

/// One element of the plain listing; what its kind does not have is empty.
#[derive(Clone, Debug, PartialEq, Eq)]
pub struct Listed<'a> {
    pub group: u64,
    pub kind: Kind,
    pub id: i64,
    /// The raw position, of nodes only.
    pub position: Option<(i64, i64)>,
    pub tags: Vec<TagText<'a>>,
    pub refs: Vec<i64>,
    pub members: Vec<ListedMember<'a>>,
}

/// A member as role text and id.
#[derive(Clone, Debug, PartialEq, Eq)]
pub struct ListedMember<'a> {
    pub role: Option<&'a [u8]>,
    pub id: MemberId,
}

/// The plain listing with the date granularity and each element's metadata.
#[derive(Clone, Debug, PartialEq, Eq)]
pub struct FullListing<'a> {
    pub plain: Listing<'a>,
    pub date_granularity: i32,
    /// One entry per element of the plain listing.
    pub metadata: Vec<Metadata>,
}

/// The metadata of one element; an absent Info counts as an empty one.
#[derive(Clone, Copy, Debug, PartialEq, Eq)]
pub enum Metadata {
    Dense(Option<DenseNodeInfo>),
    Message(Info),
}

/// The plain listing.
pub fn listing(block: &[u8]) -> Result<Listing<'_>, Refusal> {
    let source = Source::read(block)?;
    let mut elements = Vec::new();
    for (number, &group) in source.groups.iter().enumerate() {
        list_group(&source, number as u64, group, &mut elements)?;
    }
    Ok(Listing {
        granularity: source.fields.granularity,
        lat_offset: source.fields.lat_offset,
        lon_offset: source.fields.lon_offset,
        group_count: source.fields.group_count,
        elements,
    })
}

fn list_group<'a>(
    source: &Source<'a>,
    number: u64,
    group: Part,
    elements: &mut Vec<Listed<'a>>,
) -> Result<(), Refusal> {
    let dense = dense_pass(source.block, group.start, group.len)?;
    list_dense(source, number, dense, elements)?;
    for message in source.messages(group, NODE)? {
        elements.push(list_node(source, number, message)?);
    }
    for message in source.messages(group, WAY)? {
        elements.push(list_way(source, number, message)?);
    }
    for message in source.messages(group, RELATION)? {
        elements.push(list_relation(source, number, message)?);
    }
    Ok(())
}

fn list_dense<'a>(
    source: &Source<'a>,
    group: u64,
    message: Part,
    elements: &mut Vec<Listed<'a>>,
) -> Result<(), Refusal> {
    let dense = DenseNodes::read(source.block, message.start, message.len)?;
    let ids = running_sums(&source.stored(dense.ids, sint64)?);
    let lats = running_sums(&source.stored(dense.lats, sint64)?);
    let lons = running_sums(&source.stored(dense.lons, sint64)?);
    same_count(&ids, &lats, &lons)?;
    let tags = source.dense_tags(dense.keys_vals, ids.len())?;
    for (i, tags) in tags.into_iter().enumerate() {
        let position = Some((lats[i], lons[i]));
        elements.push(Listed {
            position,
            tags,
            ..bare(group, Kind::DenseNode, ids[i])
        });
    }
    Ok(())
}

fn list_node<'a>(source: &Source<'a>, group: u64, message: Part) -> Result<Listed<'a>, Refusal> {
    let node = Node::read(source.block, message.start, message.len)?;
    Ok(Listed {
        position: Some((node.lat, node.lon)),
        tags: source.tags(node.keys, node.vals)?,
        ..bare(group, Kind::Node, node.id)
    })
}

fn list_way<'a>(source: &Source<'a>, group: u64, message: Part) -> Result<Listed<'a>, Refusal> {
    let way = Way::read(source.block, message.start, message.len)?;
    Ok(Listed {
        tags: source.tags(way.keys, way.vals)?,
        refs: running_sums(&source.stored(way.refs, sint64)?),
        ..bare(group, Kind::Way, way.id)
    })
}

fn list_relation<'a>(
    source: &Source<'a>,
    group: u64,
    message: Part,
) -> Result<Listed<'a>, Refusal> {
    let relation = Relation::read(source.block, message.start, message.len)?;
    let tags = source.tags(relation.keys, relation.vals)?;
    let stored = source.members(&relation)?;
    let sums = running_sums(&stored.memids);
    let members = stored.roles.iter().zip(&stored.types).zip(&sums);
    let members = members.map(|((&role, &raw_type), &id)| ListedMember {
        role: source.role(role),
        id: MemberId::of(raw_type, id),
    });
    Ok(Listed {
        tags,
        members: members.collect(),
        ..bare(group, Kind::Relation, relation.id)
    })
}

/// An element with nothing but its group, kind and id.
fn bare<'a>(group: u64, kind: Kind, id: i64) -> Listed<'a> {
    let (tags, refs, members) = (Vec::new(), Vec::new(), Vec::new());
    Listed {
        group,
        kind,
        id,
        position: None,
        tags,
        refs,
        members,
    }
}

/// The full listing.
pub fn full_listing(block: &[u8]) -> Result<FullListing<'_>, Refusal> {
    let plain = listing(block)?;
    let source = Source::read(block)?;
    let mut metadata = Vec::with_capacity(plain.elements.len());
    for &group in &source.groups {
        list_metadata(&source, group, &mut metadata)?;
    }
    Ok(FullListing {
        plain,
        date_granularity: source.fields.date_granularity,
        metadata,
    })
}

fn list_metadata(
    source: &Source,
    group: Part,
    metadata: &mut Vec<Metadata>,
) -> Result<(), Refusal> {
    let dense = dense_pass(source.block, group.start, group.len)?;
    list_dense_metadata(source, dense, metadata)?;
    for m in source.messages(group, NODE)? {
        let info = Node::read(source.block, m.start, m.len)?.info;
        metadata.push(message_metadata(source, info)?);
    }
    for m in source.messages(group, WAY)? {
        let info = Way::read(source.block, m.start, m.len)?.info;
        metadata.push(message_metadata(source, info)?);
    }
    for m in source.messages(group, RELATION)? {
        let info = Relation::read(source.block, m.start, m.len)?.info;
        metadata.push(message_metadata(source, info)?);
    }
    Ok(())
}

fn message_metadata(source: &Source, info: Part) -> Result<Metadata, Refusal> {
    Info::read(source.block, info.start, info.len).map(Metadata::Message)
}

/// A node has info while the first five columns all have a value; visible is
/// true where its column is shorter.
fn list_dense_metadata(
    source: &Source,
    message: Part,
    metadata: &mut Vec<Metadata>,
) -> Result<(), Refusal> {
    let dense = DenseNodes::read(source.block, message.start, message.len)?;
    let info = DenseInfo::read(source.block, dense.info.start, dense.info.len)?;
    let nodes = source.stored(dense.ids, sint64)?.len();
    let versions = source.stored(info.versions, int32)?;
    let timestamps = running_sums(&source.stored(info.timestamps, sint64)?);
    let changesets = running_sums(&source.stored(info.changesets, sint64)?);
    let uids = running_sums32(&source.stored(info.uids, sint32)?);
    let user_sids = running_sums32(&source.stored(info.user_sids, sint32)?);
    let visibles = source.stored(info.visibles, boolean)?;
    let row = |i: usize| {
        Some(DenseNodeInfo {
            version: *versions.get(i)?,
            timestamp: *timestamps.get(i)?,
            changeset: *changesets.get(i)?,
            uid: *uids.get(i)?,
            user_sid: *user_sids.get(i)?,
            visible: visibles.get(i).copied().unwrap_or(true),
        })
    };
    metadata.extend((0..nodes).map(|i| Metadata::Dense(row(i))));
    Ok(())
}

/// Running sums that wrap at 32 bits.
fn running_sums32(differences: &[i32]) -> Vec<i32> {
    let sums = differences.iter().scan(0i32, |sum, &difference| {
        *sum = sum.wrapping_add(difference);
        Some(*sum)
    });
    sums.collect()
}
