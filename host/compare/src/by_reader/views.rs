//! The simple reader's six views and its dense pass.

use reader::{DenseInfo, DenseNodes, Info, Node, Part, Refusal, Relation, Way};

use crate::text::Words;

pub fn node(bytes: &[u8]) -> String {
    view(Node::read(bytes, 0, bytes.len()), put_node)
}

pub fn way(bytes: &[u8]) -> String {
    view(Way::read(bytes, 0, bytes.len()), put_way)
}

pub fn relation(bytes: &[u8]) -> String {
    view(Relation::read(bytes, 0, bytes.len()), put_relation)
}

pub fn dense(bytes: &[u8]) -> String {
    view(DenseNodes::read(bytes, 0, bytes.len()), put_dense)
}

pub fn dense_info(bytes: &[u8]) -> String {
    view(DenseInfo::read(bytes, 0, bytes.len()), put_dense_info)
}

pub fn info(bytes: &[u8]) -> String {
    view(Info::read(bytes, 0, bytes.len()), put_info)
}

pub fn dense_pass(bytes: &[u8]) -> String {
    view(reader::dense_pass(bytes, 0, bytes.len()), put_part)
}

/// A view's number, and what it read where that is 0.
pub fn view<T>(read: Result<T, Refusal>, write: impl FnOnce(T, &mut Words)) -> String {
    let mut out = Words::new();
    match read {
        Ok(view) => write(view, out.put(0)),
        Err(number) => {
            out.put(number);
        }
    }
    out.done()
}

fn put_node(n: Node, out: &mut Words) {
    out.put(n.id).put(n.lat).put(n.lon);
    parts(&[n.keys, n.vals, n.info], out);
}

fn put_way(w: Way, out: &mut Words) {
    out.put(w.id);
    parts(
        &[w.keys, w.vals, w.info, w.refs, w.lats, w.lons, w.pins],
        out,
    );
}

fn put_relation(r: Relation, out: &mut Words) {
    out.put(r.id);
    parts(&[r.keys, r.vals, r.info, r.roles, r.memids, r.types], out);
}

fn put_dense(d: DenseNodes, out: &mut Words) {
    parts(&[d.ids, d.info, d.lats, d.lons, d.keys_vals], out);
}

fn put_dense_info(i: DenseInfo, out: &mut Words) {
    parts(&[i.versions, i.timestamps, i.changesets], out);
    parts(&[i.uids, i.user_sids, i.visibles], out);
}

pub fn put_info(i: Info, out: &mut Words) {
    out.optional(i.version)
        .optional(i.timestamp)
        .optional(i.changeset)
        .optional(i.uid)
        .optional(i.user_sid)
        .optional(i.visible.map(u8::from));
}

fn parts(parts: &[Part], out: &mut Words) {
    for &one in parts {
        put_part(one, out);
    }
}

pub fn put_part(part: Part, out: &mut Words) {
    out.part(part.present, part.start, part.len);
}
