//! The published views, the dense pass and the message iterator.

use published::read::wire::{
    WireDenseInfo, WireDenseNodes, WireGroup, WireInfo, WireMessageIter, WireNode, WireRelation,
    WireWay,
};
use published::refused;

use crate::text::Words;

pub fn node(bytes: &[u8]) -> String {
    view(WireNode::parse(bytes), |n, out| put_node(bytes, n, out))
}

pub fn way(bytes: &[u8]) -> String {
    view(WireWay::parse(bytes), |w, out| put_way(bytes, w, out))
}

pub fn relation(bytes: &[u8]) -> String {
    view(WireRelation::parse(bytes), |r, out| {
        put_relation(bytes, r, out)
    })
}

pub fn dense(bytes: &[u8]) -> String {
    view(WireDenseNodes::parse(bytes), |d, out| {
        put_dense(bytes, d, out)
    })
}

pub fn dense_info(bytes: &[u8]) -> String {
    view(WireDenseInfo::parse(bytes), |i, out| {
        put_dense_info(bytes, i, out)
    })
}

pub fn info(bytes: &[u8]) -> String {
    view(WireInfo::parse(bytes), |i, out| put_info(&i, out))
}

pub fn dense_pass(bytes: &[u8]) -> String {
    view(WireGroup::new(bytes).dense(), |dense, out| {
        put_message(bytes, dense, out)
    })
}

/// A view's number, and what it read where that is 0.
fn view<T, E: std::fmt::Display>(
    parsed: Result<T, E>,
    write: impl FnOnce(T, &mut Words),
) -> String {
    match parsed {
        Ok(view) => {
            let mut out = Words::new();
            out.put(0);
            write(view, &mut out);
            out.done()
        }
        Err(err) => refused(err).to_string(),
    }
}

fn put_node(bytes: &[u8], n: WireNode<'_>, out: &mut Words) {
    out.put(n.id).put(n.lat).put(n.lon);
    put_common(bytes, (n.keys_data, n.vals_data, n.info_data), out);
}

fn put_way(bytes: &[u8], w: WireWay<'_>, out: &mut Words) {
    out.put(w.id);
    put_common(bytes, (w.keys_data, w.vals_data, w.info_data), out);
    columns(bytes, &[w.refs_data, w.lat_data, w.lon_data], out);
    put_message(bytes, w.pins_data, out);
}

fn put_relation(bytes: &[u8], r: WireRelation<'_>, out: &mut Words) {
    out.put(r.id);
    put_common(bytes, (r.keys_data, r.vals_data, r.info_data), out);
    columns(bytes, &[r.roles_sid_data, r.memids_data, r.types_data], out);
}

/// Keys, vals and info.
fn put_common(bytes: &[u8], common: (&[u8], &[u8], Option<&[u8]>), out: &mut Words) {
    let (keys, vals, info) = common;
    columns(bytes, &[keys, vals], out);
    put_message(bytes, info, out);
}

fn put_dense(bytes: &[u8], d: WireDenseNodes<'_>, out: &mut Words) {
    columns(bytes, &[d.id_data], out);
    put_message(bytes, d.info_data, out);
    columns(bytes, &[d.lat_data, d.lon_data, d.keys_vals_data], out);
}

fn put_dense_info(bytes: &[u8], i: WireDenseInfo<'_>, out: &mut Words) {
    let core = [i.version_data, i.timestamp_data, i.changeset_data];
    columns(bytes, &core, out);
    columns(bytes, &[i.uid_data, i.user_sid_data, i.visible_data], out);
}

pub fn put_info(i: &WireInfo, out: &mut Words) {
    out.optional(i.version)
        .optional(i.timestamp)
        .optional(i.changeset)
        .optional(i.uid)
        .optional(i.user_sid)
        .optional(i.visible.map(u8::from));
}

/// Columns; an empty one is a column that is not present.
fn columns(bytes: &[u8], columns: &[&[u8]], out: &mut Words) {
    for &column in columns {
        put_message(bytes, Some(column).filter(|c| !c.is_empty()), out);
    }
}

/// A part of the bytes, or nothing.
pub fn put_message(bytes: &[u8], message: Option<&[u8]>, out: &mut Words) {
    let (start, len) = message.map_or((0, 0), |part| place(bytes, part));
    out.part(message.is_some(), start, len);
}

/// The messages of a field.
pub fn messages(bytes: &[u8], field: u32) -> String {
    let mut out = Words::new();
    for part in WireMessageIter::new(bytes, field) {
        let (start, len) = place(bytes, part);
        out.put(start).put(len);
    }
    out.end(None::<u8>);
    out.done()
}

/// Start and length of a part that the Rust lends.
pub fn place(bytes: &[u8], part: &[u8]) -> (usize, usize) {
    (part.as_ptr() as usize - bytes.as_ptr() as usize, part.len())
}
