//! The simple reader's walks, step by step, with the sub-walks of each element.

use reader::walk::{Body, nanodegrees};
use reader::{
    Answer, DenseNode, DenseNodeInfo, DenseTags, Element, Got, Info, Member, MemberId, Members,
    Messages, Mode, Part, Record, Refs, ShownTag, Tags, bytes_of,
};

use super::views::{put_info, put_part, view};
use crate::text::Words;

/// The messages of a field.
pub fn messages(bytes: &[u8], field: u32) -> String {
    let mut out = Words::new();
    let start = Messages::new(field, 0, bytes.len());
    steps(
        &mut out,
        start,
        |state| reader::messages_step(bytes, state),
        |message, out| {
            out.put(message.start).put(message.len);
        },
    );
    out.done()
}

/// A whole walk.
pub fn walk(buffer: &[u8], record: &Record, mode: Mode) -> String {
    let mut out = Words::new();
    let start = reader::start(record);
    let step = |state| reader::step(buffer, record, state, mode);
    steps(&mut out, start, step, |found, out| {
        element(buffer, record, &found, mode, out)
    });
    out.done()
}

/// The items of a walk, and how it ends. The state behind the end or a
/// refusal must be the ended one: one more step says so.
fn steps<S: Copy, T>(
    out: &mut Words,
    mut state: S,
    step: impl Fn(S) -> (Answer<T>, S),
    mut put: impl FnMut(T, &mut Words),
) {
    let refused = loop {
        let (answer, next) = step(state);
        state = next;
        match answer {
            Answer::Item(item) => put(item, out),
            Answer::Ended => break None,
            Answer::Refused(number) => break Some(number),
        }
    };
    out.end(refused);
    if !matches!(step(state).0, Answer::Ended) {
        out.put("goes on");
    }
}

fn element(buffer: &[u8], record: &Record, element: &Element, mode: Mode, out: &mut Words) {
    let group = element.group;
    match element.body {
        Body::Dense(d) => dense_node(buffer, record, group, &d, mode, out),
        Body::Node(n) => {
            out.put('n').put(group).put(n.id);
            position(record, n.lat, n.lon, out);
            element_info(buffer, n.info, mode, out);
            tags(buffer, record, n.keys, n.vals, out);
        }
        Body::Way(w) => {
            out.put('w').put(group).put(w.id);
            element_info(buffer, w.info, mode, out);
            tags(buffer, record, w.keys, w.vals, out);
            let step = |state| reader::refs_step(buffer, state);
            steps(out, Refs::of(&w), step, |reference, out| {
                out.put(reference);
            });
        }
        Body::Relation(r) => {
            out.put('r').put(group).put(r.id);
            element_info(buffer, r.info, mode, out);
            tags(buffer, record, r.keys, r.vals, out);
            let step = |state| reader::members_step(buffer, record, state);
            steps(out, Members::of(&r), step, |m, out| {
                member(buffer, record, m, out)
            });
        }
    }
}

fn dense_node(
    buffer: &[u8],
    record: &Record,
    group: u64,
    d: &DenseNode,
    mode: Mode,
    out: &mut Words,
) {
    out.put('d').put(group).put(d.id);
    position(record, d.lat, d.lon, out);
    match (mode, d.info) {
        (Mode::Full, Some(info)) => dense_node_info(&info, out),
        (Mode::Full, None) => {
            out.put('~');
        }
        (Mode::Plain, Some(_)) => {
            out.put("info in a plain walk");
        }
        (Mode::Plain, None) => {}
    }
    let step = |state| reader::dense_tags_step(buffer, record, state);
    steps(out, DenseTags::of(d.tags), step, |t, out| {
        tag(buffer, t, out)
    });
}

/// The raw position, and the position in nanodegrees.
fn position(record: &Record, lat: i64, lon: i64, out: &mut Words) {
    out.put(lat)
        .put(lon)
        .put(nanodegrees(record.lat_offset, record.granularity, lat))
        .put(nanodegrees(record.lon_offset, record.granularity, lon));
}

fn dense_node_info(i: &DenseNodeInfo, out: &mut Words) {
    out.put(i.version)
        .put(i.timestamp)
        .put(i.changeset)
        .put(i.uid);
    out.put(i.user_sid).put(u8::from(i.visible));
}

/// In a full walk the place of an element's Info and what its view reads; in
/// a plain walk nothing, and none may be handed out.
fn element_info(buffer: &[u8], place: Part, mode: Mode, out: &mut Words) {
    match mode {
        Mode::Plain if place == Part::ABSENT => {}
        Mode::Plain => {
            out.put("info in a plain walk");
        }
        Mode::Full => {
            put_part(place, out);
            out.put(view(Info::read(buffer, place.start, place.len), put_info));
        }
    }
}

fn tags(buffer: &[u8], record: &Record, keys: Part, vals: Part, out: &mut Words) {
    let step = |state| reader::tags_step(buffer, record, state);
    steps(out, Tags::of(keys, vals), step, |t, out| {
        tag(buffer, t, out)
    });
}

fn tag(buffer: &[u8], tag: ShownTag, out: &mut Words) {
    out.bytes(bytes_of(buffer, tag.key))
        .bytes(bytes_of(buffer, tag.val));
}

fn member(buffer: &[u8], record: &Record, m: Member, out: &mut Words) {
    out.put(m.role);
    match reader::role_text(buffer, record, m.role) {
        Got::Text(start, len) => out.bytes(&buffer[start..start + len]),
        Got::None => out.put('~'),
        Got::Refused(number) => out.put('!').put(number),
    };
    let (kind, id) = match m.id {
        MemberId::Node(id) => (0, id),
        MemberId::Way(id) => (1, id),
        MemberId::Relation(id) => (2, id),
        MemberId::Unknown(kind, id) => (kind, id),
    };
    out.put(kind).put(id);
}
