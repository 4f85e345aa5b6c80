//! A whole run: the walk from its start, each step on the state that the last
//! one handed back, with the sub-walks of every element. What it gathers has
//! the form of a listing, so that the two can be compared.

use crate::answer::Answer;
use crate::listing::{FullListing, Kind, Listed, ListedMember, Listing, Metadata};
use crate::number::Refusal;
use crate::part::{bytes_of, Part};
use crate::scan::{role_text, Got, Record};
use crate::source::TagText;
use crate::subwalk::{
    dense_tags_step, members_step, refs_step, tags_step, DenseTags, Member, Members, Refs,
    ShownTag, Tags,
};
use crate::views::Info;
use crate::walk::{start, step, Body, DenseNode, Element, Mode};

/// The plain walk as a listing, or the first number that a step gives.
pub fn walked<'a>(buffer: &'a [u8], record: &Record) -> Result<Listing<'a>, Refusal> {
    gather(buffer, record, Mode::Plain).map(|(_, listing)| listing)
}

/// The full walk as a listing, or the first number that a step gives.
pub fn walked_full<'a>(buffer: &'a [u8], record: &Record) -> Result<FullListing<'a>, Refusal> {
    let (elements, plain) = gather(buffer, record, Mode::Full)?;
    let metadata = elements.iter().map(|element| metadata(buffer, element));
    Ok(FullListing {
        plain,
        date_granularity: record.date_granularity,
        metadata: metadata.collect::<Result<_, _>>()?,
    })
}

/// All elements of a walk, and what they and their sub-walks list.
fn gather<'a>(
    buffer: &'a [u8],
    record: &Record,
    mode: Mode,
) -> Result<(Vec<Element>, Listing<'a>), Refusal> {
    let elements = all_steps(start(record), |walk| step(buffer, record, walk, mode))?;
    let listed = elements.iter().map(|element| list(buffer, record, element));
    let listing = Listing {
        granularity: record.granularity,
        lat_offset: record.lat_offset,
        lon_offset: record.lon_offset,
        group_count: record.group_count,
        elements: listed.collect::<Result<_, _>>()?,
    };
    Ok((elements, listing))
}

/// All items that steps give from a state on, each step on the last state.
pub fn all_steps<T, S>(
    mut state: S,
    mut step: impl FnMut(S) -> (Answer<T>, S),
) -> Result<Vec<T>, Refusal> {
    let mut items = Vec::new();
    loop {
        let (answer, next) = step(state);
        match answer {
            Answer::Item(item) => items.push(item),
            Answer::Ended => return Ok(items),
            Answer::Refused(number) => return Err(number),
        }
        state = next;
    }
}

fn list<'a>(buffer: &'a [u8], record: &Record, e: &Element) -> Result<Listed<'a>, Refusal> {
    let tags = |keys, vals| {
        all_steps(Tags::of(keys, vals), |tags| tags_step(buffer, record, tags))
            .map(|shown| texts(buffer, &shown))
    };
    let bare = |kind, id, tags| Listed {
        group: e.group,
        kind,
        id,
        position: None,
        tags,
        refs: Vec::new(),
        members: Vec::new(),
    };
    Ok(match &e.body {
        Body::Dense(node) => Listed {
            position: Some((node.lat, node.lon)),
            ..bare(Kind::DenseNode, node.id, dense_tags(buffer, record, node)?)
        },
        Body::Node(node) => Listed {
            position: Some((node.lat, node.lon)),
            ..bare(Kind::Node, node.id, tags(node.keys, node.vals)?)
        },
        Body::Way(way) => Listed {
            refs: all_steps(Refs::of(way), |refs| refs_step(buffer, refs))?,
            ..bare(Kind::Way, way.id, tags(way.keys, way.vals)?)
        },
        Body::Relation(relation) => Listed {
            members: members(buffer, record, Members::of(relation))?,
            ..bare(
                Kind::Relation,
                relation.id,
                tags(relation.keys, relation.vals)?,
            )
        },
    })
}

fn dense_tags<'a>(
    buffer: &'a [u8],
    record: &Record,
    node: &DenseNode,
) -> Result<Vec<TagText<'a>>, Refusal> {
    let state = DenseTags::of(node.tags);
    let shown = all_steps(state, |tags| dense_tags_step(buffer, record, tags))?;
    Ok(texts(buffer, &shown))
}

fn texts<'a>(buffer: &'a [u8], shown: &[ShownTag]) -> Vec<TagText<'a>> {
    shown
        .iter()
        .map(|tag| (bytes_of(buffer, tag.key), bytes_of(buffer, tag.val)))
        .collect()
}

fn members<'a>(
    buffer: &'a [u8],
    record: &Record,
    state: Members,
) -> Result<Vec<ListedMember<'a>>, Refusal> {
    let members = all_steps(state, |members| members_step(buffer, record, members))?;
    let listed = members.into_iter().map(|Member { role, id }| {
        let role = match role_text(buffer, record, role) {
            Got::Text(start, len) => Some(bytes_of(buffer, Part::at(start, len))),
            Got::None => None,
            Got::Refused(number) => return Err(number),
        };
        Ok(ListedMember { role, id })
    });
    listed.collect()
}

/// An absent Info is read as an empty one.
fn metadata(buffer: &[u8], element: &Element) -> Result<Metadata, Refusal> {
    let info = match element.body {
        Body::Dense(node) => return Ok(Metadata::Dense(node.info)),
        Body::Node(node) => node.info,
        Body::Way(way) => way.info,
        Body::Relation(relation) => relation.info,
    };
    Info::read(buffer, info.start, info.len).map(Metadata::Message)
}
