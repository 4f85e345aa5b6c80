//! The elements of an accepted block, as the library's walk hands them out.

use std::ops::Range;

use crate::block::{Block, Members, Refs, Tags, Walk, part};

#[derive(Clone, Copy, Debug, PartialEq, Eq)]
pub enum Kind {
    DenseNode,
    Node,
    Way,
    Relation,
}

impl Kind {
    pub fn name(self) -> &'static str {
        match self {
            Kind::DenseNode => "dense node",
            Kind::Node => "node",
            Kind::Way => "way",
            Kind::Relation => "relation",
        }
    }
}

/// Texts are bytes: a block may hold any.
pub type Text = Vec<u8>;

#[derive(Clone, Debug, PartialEq, Eq)]
pub struct Element {
    pub group: usize,
    pub kind: Kind,
    pub id: i64,
    /// Of nodes: latitude and longitude as they are stored.
    pub position: Option<(i64, i64)>,
    /// The same in nanodegrees.
    pub nanodegrees: Option<(i64, i64)>,
    pub tags: Vec<(Text, Text)>,
    /// Of ways.
    pub refs: Vec<i64>,
    /// Of relations.
    pub members: Vec<Member>,
    /// Where the walk is full and the element has some.
    pub metadata: Option<Metadata>,
}

#[derive(Clone, Debug, PartialEq, Eq)]
pub struct Member {
    pub kind: MemberKind,
    pub id: i64,
    /// None where there is no text at the role's number, which is not "".
    pub role: Option<Text>,
}

#[derive(Clone, Copy, Debug, PartialEq, Eq)]
pub enum MemberKind {
    Node,
    Way,
    Relation,
    /// With its type as stored.
    Unknown(i64),
}

#[derive(Clone, Debug, Default, PartialEq, Eq)]
pub struct Metadata {
    pub version: Option<i64>,
    /// In units of the block's date granularity.
    pub timestamp: Option<i64>,
    pub changeset: Option<i64>,
    pub uid: Option<i64>,
    pub user_sid: Option<i64>,
    /// The text at user_sid.
    pub user: Option<Text>,
    pub visible: Option<bool>,
}

/// The elements of a block, one after the other.
pub struct Elements<'a> {
    block: &'a mut Block,
    walk: Walk,
    is_full: bool,
}

impl<'a> Elements<'a> {
    /// Without metadata.
    pub fn plain(block: &'a mut Block) -> Elements<'a> {
        Elements {
            block,
            walk: Walk::plain(),
            is_full: false,
        }
    }

    /// With metadata.
    pub fn full(block: &'a mut Block) -> Elements<'a> {
        Elements {
            block,
            walk: Walk::full(),
            is_full: true,
        }
    }

    fn text(&self, range: Range<usize>) -> Text {
        self.block.bytes(range).to_vec()
    }

    fn tags(&mut self, element: [u8; proved::ELEMENT_SIZE]) -> Vec<(Text, Text)> {
        let mut found = Vec::new();
        let mut tags = Tags::of(element);
        while let Some((key, value)) = self.block.tag(&mut tags) {
            found.push((self.text(key), self.text(value)));
        }
        found
    }

    fn refs(&mut self, element: [u8; proved::ELEMENT_SIZE]) -> Vec<i64> {
        let mut found = Vec::new();
        let mut refs = Refs::of(element);
        while let Ok(more) = self.block.references(&mut refs) {
            found.extend(more);
        }
        found
    }

    fn members(&mut self, element: [u8; proved::ELEMENT_SIZE]) -> Vec<Member> {
        let mut found = Vec::new();
        let mut members = Members::of(element);
        while let Some(member) = self.block.member(&mut members) {
            let number = |place| proved::number(&member, place) as i64;
            let role = self.block.text_at(number(proved::MEMBER_ROLE));
            let kind = match number(proved::MEMBER_CASE) as usize {
                proved::MEMBER_NODE => MemberKind::Node,
                proved::MEMBER_WAY => MemberKind::Way,
                proved::MEMBER_RELATION => MemberKind::Relation,
                _ => MemberKind::Unknown(number(proved::MEMBER_TYPE)),
            };
            found.push(Member {
                kind,
                id: number(proved::MEMBER_ID),
                role: role.map(|range| self.text(range)),
            });
        }
        found
    }

    fn metadata(&mut self, kind: Kind, view: &[u8]) -> Option<Metadata> {
        if !self.is_full {
            return None;
        }
        let mut found = match kind {
            Kind::DenseNode => dense_metadata(view)?,
            Kind::Node => self.info(view, proved::NODE_INFO)?,
            Kind::Way => self.info(view, proved::WAY_INFO)?,
            Kind::Relation => self.info(view, proved::RELATION_INFO)?,
        };
        let user = found.user_sid.and_then(|sid| self.block.text_at(sid));
        found.user = user.map(|range| self.text(range));
        Some(found)
    }

    fn info(&mut self, view: &[u8], place: usize) -> Option<Metadata> {
        let range = part(view, place)?;
        let info = self
            .block
            .view::<{ proved::INFO_SIZE }>(proved::info, &range);
        let info = info.ok()?;
        let number = |present, value| {
            let is_present = proved::number(&info, present) != 0;
            is_present.then(|| proved::number(&info, value) as i64)
        };
        use proved::*;
        Some(Metadata {
            version: number(INFO_VERSION_PRESENT, INFO_VERSION_VALUE),
            timestamp: number(INFO_TIMESTAMP_PRESENT, INFO_TIMESTAMP_VALUE),
            changeset: number(INFO_CHANGESET_PRESENT, INFO_CHANGESET_VALUE),
            uid: number(INFO_UID_PRESENT, INFO_UID_VALUE),
            user_sid: number(INFO_USER_SID_PRESENT, INFO_USER_SID_VALUE),
            user: None,
            visible: number(INFO_VISIBLE_PRESENT, INFO_VISIBLE_VALUE).map(|value| value != 0),
        })
    }
}

/// That of a dense node, where it has some.
fn dense_metadata(view: &[u8]) -> Option<Metadata> {
    let number = |place| Some(proved::number(view, place) as i64);
    if proved::number(view, proved::DENSE_NODE_INFO) as usize != proved::INFO_READ {
        return None;
    }
    Some(Metadata {
        version: number(proved::DENSE_NODE_VERSION),
        timestamp: number(proved::DENSE_NODE_TIMESTAMP),
        changeset: number(proved::DENSE_NODE_CHANGESET),
        uid: number(proved::DENSE_NODE_UID),
        user_sid: number(proved::DENSE_NODE_USER_SID),
        user: None,
        visible: number(proved::DENSE_NODE_VISIBLE).map(|value| value != 0),
    })
}

impl Iterator for Elements<'_> {
    type Item = Element;

    /// The walk of an accepted block is never refused, so any code is its end.
    fn next(&mut self) -> Option<Element> {
        let element = self.block.step(&mut self.walk).ok()?;
        let view = &element[proved::ELEMENT_VIEW..];
        let kind = match proved::number(&element, proved::ELEMENT_KIND) as usize {
            proved::ELEMENT_DENSE_NODE => Kind::DenseNode,
            proved::ELEMENT_NODE => Kind::Node,
            proved::ELEMENT_WAY => Kind::Way,
            _ => Kind::Relation,
        };
        // A dense node has its id and its position where a node has them.
        let number = |place| proved::number(view, place) as i64;
        let is_node = matches!(kind, Kind::DenseNode | Kind::Node);
        let position = is_node.then(|| (number(proved::NODE_LAT), number(proved::NODE_LON)));
        Some(Element {
            group: proved::number(&element, proved::ELEMENT_GROUP) as usize,
            kind,
            id: number(proved::NODE_ID),
            position,
            nanodegrees: position.and_then(|raw| self.block.nanodegrees(raw)),
            tags: self.tags(element),
            refs: self.refs(element),
            members: self.members(element),
            metadata: self.metadata(kind, view),
        })
    }
}
