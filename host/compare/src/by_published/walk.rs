//! The published walks, step by step, with the iterators of each element.

use published::read::block::BlockElementsIter;
use published::read::dense::{DenseNode, DenseNodeInfo};
use published::read::elements::{Element, MemberId, RelMember};
use published::read::wire::WireInfo;
use published::{Opened, caught, refused};

use super::views::{put_info, put_message};
use crate::text::Words;

/// A whole walk, by `next` and by `step` in turn: both give the next element.
pub fn walk(bytes: &[u8], full: bool) -> String {
    let opened = match Opened::scan(bytes) {
        Ok(opened) => opened,
        Err(why) => return format!("unscanned {why}"),
    };
    let mut iter = if full {
        BlockElementsIter::new(opened.block())
    } else {
        BlockElementsIter::new_skip_metadata(opened.block())
    };
    let mut out = Words::new();
    let mut by_next = true;
    let refused = loop {
        let stepped = caught(|| {
            if by_next {
                iter.next()
            } else {
                next_by_steps(&mut iter)
            }
        });
        by_next = !by_next;
        match stepped {
            Ok(Some(found)) => {
                element(opened.bytes(), iter.group_index - 1, &found, full, &mut out)
            }
            Ok(None) => break None,
            Err(why) => break Some(why.to_string()),
        }
    };
    out.end(refused);
    out.done()
}

fn next_by_steps<'a>(iter: &mut BlockElementsIter<'a>) -> Option<Element<'a>> {
    loop {
        if let Some(element) = iter.step() {
            return element;
        }
    }
}

fn element(bytes: &[u8], group: usize, element: &Element<'_>, full: bool, out: &mut Words) {
    match element {
        Element::DenseNode(d) => dense_node(group, d, full, out),
        Element::Node(n) => {
            out.put('n')
                .put(group)
                .put(n.id())
                .put(n.node.lat)
                .put(n.node.lon);
            out.put(n.nano_lat()).put(n.nano_lon());
            element_info(bytes, n.node.info_data, full, out);
            steps(n.tags(), out, tag);
        }
        Element::Way(w) => {
            out.put('w').put(group).put(w.id());
            element_info(bytes, w.way.info_data, full, out);
            steps(w.tags(), out, tag);
            steps(w.refs(), out, |reference, out| {
                out.put(reference);
            });
        }
        Element::Relation(r) => {
            out.put('r').put(group).put(r.id());
            element_info(bytes, r.rel.info_data, full, out);
            steps(r.tags(), out, tag);
            steps(r.members(), out, member);
        }
    }
}

fn dense_node(group: usize, d: &DenseNode<'_>, full: bool, out: &mut Words) {
    out.put('d').put(group).put(d.id).put(d.lat).put(d.lon);
    out.put(d.nano_lat()).put(d.nano_lon());
    if full {
        match &d.info {
            Some(info) => dense_node_info(info, out),
            None => {
                out.put('~');
            }
        }
    }
    steps(d.tags(), out, tag);
}

fn dense_node_info(i: &DenseNodeInfo<'_>, out: &mut Words) {
    out.put(i.version)
        .put(i.timestamp)
        .put(i.changeset)
        .put(i.uid);
    out.put(i.user_sid).put(u8::from(i.visible));
}

/// The place of an element's Info and what its view reads. The Rust keeps the
/// place in both walks; that the plain walk hands out none is ours.
fn element_info(bytes: &[u8], data: Option<&[u8]>, full: bool, out: &mut Words) {
    if !full {
        return;
    }
    put_message(bytes, data, out);
    match WireInfo::parse(data.unwrap_or(&[])) {
        Ok(i) => put_info(&i, out.put(0)),
        Err(err) => {
            out.put(refused(err).to_string());
        }
    }
}

/// The items of a sub-walk, and how it ends.
fn steps<T>(mut iter: impl Iterator<Item = T>, out: &mut Words, put: impl Fn(T, &mut Words)) {
    let refused = loop {
        match caught(|| iter.next()) {
            Ok(Some(item)) => put(item, out),
            Ok(None) => break None,
            Err(why) => break Some(why.to_string()),
        }
    };
    out.end(refused);
}

fn tag((key, value): (&str, &str), out: &mut Words) {
    out.bytes(key.as_bytes()).bytes(value.as_bytes());
}

fn member(m: RelMember<'_>, out: &mut Words) {
    out.put(m.role_sid);
    match m.role() {
        Ok(text) => out.bytes(text.as_bytes()),
        Err(_) => out.put('~'),
    };
    let (kind, id) = match m.id {
        MemberId::Node(id) => (0, id),
        MemberId::Way(id) => (1, id),
        MemberId::Relation(id) => (2, id),
        MemberId::Unknown(kind, id) => (kind, id),
    };
    out.put(kind).put(id);
}
