//! The simple reader's items as the numbers that C gives for them.

use reader::walk::Body;
use reader::{
    DenseNode, Element, Member, MemberId, Mode, Node, Part, RawTag, Relation, ShownTag, Way,
};

pub fn element(element: &Element, mode: Mode) -> Vec<u64> {
    let (kind, view) = match &element.body {
        Body::Dense(d) => (proved::ELEMENT_DENSE_NODE, dense_node(d, mode)),
        Body::Node(n) => (proved::ELEMENT_NODE, node(n)),
        Body::Way(w) => (proved::ELEMENT_WAY, way(w)),
        Body::Relation(r) => (proved::ELEMENT_RELATION, relation(r)),
    };
    let Part { start, len, .. } = element.message;
    let mut numbers = vec![kind as u64, element.group, start as u64, len as u64];
    numbers.extend(view);
    numbers
}

fn dense_node(d: &DenseNode, mode: Mode) -> Vec<u64> {
    let (at, end) = (d.tags.at as u64, d.tags.end as u64);
    let mut numbers = vec![d.id as u64, d.lat as u64, d.lon as u64, at, end];
    match (mode, d.info) {
        (Mode::Plain, _) => numbers.push(proved::INFO_UNREAD as u64),
        (Mode::Full, None) => numbers.push(proved::INFO_MISSING as u64),
        (Mode::Full, Some(i)) => numbers.extend([
            proved::INFO_READ as u64,
            signed(i.version),
            i.timestamp as u64,
            i.changeset as u64,
            signed(i.uid),
            signed(i.user_sid),
            u64::from(i.visible),
        ]),
    }
    numbers
}

fn node(n: &Node) -> Vec<u64> {
    let mut numbers = vec![n.id as u64, n.lat as u64, n.lon as u64];
    numbers.extend([n.keys, n.vals, n.info].iter().flat_map(part));
    numbers
}

fn way(w: &Way) -> Vec<u64> {
    let parts = [w.keys, w.vals, w.info, w.refs, w.lats, w.lons, w.pins];
    let mut numbers = vec![w.id as u64];
    numbers.extend(parts.iter().flat_map(part));
    numbers
}

fn relation(r: &Relation) -> Vec<u64> {
    let parts = [r.keys, r.vals, r.info, r.roles, r.memids, r.types];
    let mut numbers = vec![r.id as u64];
    numbers.extend(parts.iter().flat_map(part));
    numbers
}

fn part(part: &Part) -> [u64; 3] {
    [u64::from(part.present), part.start as u64, part.len as u64]
}

pub fn tag(tag: &ShownTag) -> Vec<u64> {
    let mut numbers = raw_tag(&tag.raw);
    for text in [tag.key, tag.val] {
        numbers.extend([text.start as u64, text.len as u64]);
    }
    numbers
}

pub fn raw_tag(tag: &RawTag) -> Vec<u64> {
    vec![tag.key, tag.val]
}

pub fn reference(id: &i64) -> Vec<u64> {
    vec![*id as u64]
}

pub fn member(member: &Member) -> Vec<u64> {
    let (case, kind, id) = match member.id {
        MemberId::Node(id) => (proved::MEMBER_NODE, 0, id),
        MemberId::Way(id) => (proved::MEMBER_WAY, 1, id),
        MemberId::Relation(id) => (proved::MEMBER_RELATION, 2, id),
        MemberId::Unknown(kind, id) => (proved::MEMBER_UNKNOWN, kind, id),
    };
    vec![signed(member.role), case as u64, signed(kind), id as u64]
}

fn signed(number: i32) -> u64 {
    i64::from(number) as u64
}
