//! The six views, the dense pass and a group's kind, through C: each reads a
//! range of a buffer.

use proved::InRange;

use super::around::{Around, told_in_both};
use super::faults::Faults;
use super::lent::Lent;
use super::shape::{Item, Shape};
use super::told::told;

use Item::{Number, Optional, Part};

pub struct View {
    read: InRange,
    pub shape: Shape,
}

impl View {
    const fn new(read: InRange, size: usize, items: &'static [Item]) -> View {
        let shape = Shape::new(size, items);
        View { read, shape }
    }
}

pub const NODE: View = View::new(
    proved::node,
    proved::NODE_SIZE,
    &[
        Number(proved::NODE_ID),
        Number(proved::NODE_LAT),
        Number(proved::NODE_LON),
        Part(proved::NODE_KEYS),
        Part(proved::NODE_VALS),
        Part(proved::NODE_INFO),
    ],
);
pub const WAY: View = View::new(
    proved::way,
    proved::WAY_SIZE,
    &[
        Number(proved::WAY_ID),
        Part(proved::WAY_KEYS),
        Part(proved::WAY_VALS),
        Part(proved::WAY_INFO),
        Part(proved::WAY_REFS),
        Part(proved::WAY_LAT),
        Part(proved::WAY_LON),
        Part(proved::WAY_PINS),
    ],
);
pub const RELATION: View = View::new(
    proved::relation,
    proved::RELATION_SIZE,
    &[
        Number(proved::RELATION_ID),
        Part(proved::RELATION_KEYS),
        Part(proved::RELATION_VALS),
        Part(proved::RELATION_INFO),
        Part(proved::RELATION_ROLES),
        Part(proved::RELATION_MEMIDS),
        Part(proved::RELATION_TYPES),
    ],
);
pub const DENSE_NODES: View = View::new(
    proved::dense_nodes,
    proved::DENSE_NODES_SIZE,
    &[
        Part(proved::DENSE_NODES_ID),
        Part(proved::DENSE_NODES_INFO),
        Part(proved::DENSE_NODES_LAT),
        Part(proved::DENSE_NODES_LON),
        Part(proved::DENSE_NODES_KEYS_VALS),
    ],
);
pub const DENSE_INFO: View = View::new(
    proved::dense_info,
    proved::DENSE_INFO_SIZE,
    &[
        Part(proved::DENSE_INFO_VERSION),
        Part(proved::DENSE_INFO_TIMESTAMP),
        Part(proved::DENSE_INFO_CHANGESET),
        Part(proved::DENSE_INFO_UID),
        Part(proved::DENSE_INFO_USER_SID),
        Part(proved::DENSE_INFO_VISIBLE),
    ],
);
pub const INFO: View = View::new(
    proved::info,
    proved::INFO_SIZE,
    &[
        Optional(proved::INFO_VERSION_PRESENT, proved::INFO_VERSION_VALUE),
        Optional(proved::INFO_TIMESTAMP_PRESENT, proved::INFO_TIMESTAMP_VALUE),
        Optional(proved::INFO_CHANGESET_PRESENT, proved::INFO_CHANGESET_VALUE),
        Optional(proved::INFO_UID_PRESENT, proved::INFO_UID_VALUE),
        Optional(proved::INFO_USER_SID_PRESENT, proved::INFO_USER_SID_VALUE),
        Optional(proved::INFO_VISIBLE_PRESENT, proved::INFO_VISIBLE_VALUE),
    ],
);
/// The dense message.
pub const DENSE: View = View::new(proved::dense, proved::PART_SIZE, &[Part(0)]);
const CLASSIFY: View = View::new(proved::classify, proved::KIND_SIZE, &[Number(0)]);

/// The answer about the bytes; outside of the buffer it is 14.
pub fn answer(view: &View, bytes: &[u8]) -> String {
    let mut out = told_in_both(bytes, |around| in_buffer(view, around));
    outside(view, bytes).put(&mut out);
    out.done()
}

/// The kind alone, as the other sides tell it.
pub fn classify(bytes: &[u8]) -> String {
    let answer = answer(&CLASSIFY, bytes);
    match answer.strip_prefix("0 ") {
        Some(kind) => kind.to_string(),
        None => format!("refused {answer}"),
    }
}

fn in_buffer(view: &View, around: Around) -> String {
    let mut buffer = Lent::bytes(&around.buffer);
    let mut faults = Faults::default();
    let mut told = told(view.shape.size, |out| {
        let code = (view.read)(buffer.slice(), around.start, around.len, out);
        faults.unless(buffer.is_unchanged(), "the buffer changed");
        code
    });
    told.faults.join(faults);
    told.text(&view.shape, around.start)
}

/// Ranges that pass the buffer by one, that begin behind it, and that wrap.
fn outside(view: &View, bytes: &[u8]) -> Faults {
    let mut buffer = Lent::bytes(bytes);
    let mut out = Lent::room(view.shape.size);
    let len = bytes.len();
    let mut faults = Faults::default();
    for (start, len) in [
        (0, len + 1),
        (1, len),
        (len + 1, 0),
        (0, usize::MAX),
        (usize::MAX, 0),
        (usize::MAX, len + 1),
    ] {
        let code = (view.read)(buffer.slice(), start, len, out.slice());
        faults.unless(
            code == proved::OUTSIDE,
            "a range outside is not refused with 14",
        );
        let kept = buffer.is_unchanged() && out.is_unchanged();
        faults.unless(kept, "a range outside changed what was lent");
    }
    faults
}
