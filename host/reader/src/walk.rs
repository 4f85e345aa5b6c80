//! The walk over a block's elements: group by group dense nodes, nodes, ways,
//! relations. The state is a value; a step gives the next element, says ended,
//! or refuses with an ended state. The plain walk never reads Info or
//! DenseInfo and hands out no part of them; the full walk does.

use crate::answer::Answer;
pub use crate::dense::{DenseNodeInfo, DenseRow, DenseRows, InfoRows};
use crate::group::{dense_pass, messages_step, Messages, NODE, RELATION, WAY};
use crate::number::{Refusal, OUTSIDE};
use crate::part::Part;
use crate::scan::{self, Record};
use crate::views::{DenseInfo, DenseNodes, Node, Relation, Way};

/// Whether a walk reads metadata.
#[derive(Clone, Copy, Debug, PartialEq, Eq)]
pub enum Mode {
    Plain,
    Full,
}

/// The state of a walk, a value without references or heap.
#[derive(Clone, Copy, Debug, PartialEq, Eq)]
#[allow(clippy::large_enum_variant)]
pub enum Walk {
    Ended,
    /// In front of the group of this number; at the count is the end.
    Before(u64),
    Inside(InGroup),
}

/// A place inside a group, with the range of its payload.
#[derive(Clone, Copy, Debug, PartialEq, Eq)]
pub struct InGroup {
    pub group: u64,
    pub start: usize,
    pub len: usize,
    pub place: Place,
}

/// The phases of a group, in their order.
#[derive(Clone, Copy, Debug, PartialEq, Eq)]
#[allow(clippy::large_enum_variant)]
pub enum Place {
    /// Among the rows of the dense message.
    Dense {
        message: Part,
        rows: DenseRows,
    },
    Nodes(Messages),
    Ways(Messages),
    Relations(Messages),
}

/// An element, its group number and the message that it was read from, which
/// for dense nodes is the group's one.
#[derive(Clone, Copy, Debug, PartialEq, Eq)]
pub struct Element {
    pub group: u64,
    pub message: Part,
    pub body: Body,
}

/// The four kinds. In a plain walk no Info is present.
#[derive(Clone, Copy, Debug, PartialEq, Eq)]
pub enum Body {
    Dense(DenseNode),
    Node(Node),
    Way(Way),
    Relation(Relation),
}

/// A dense node as the walk hands it out.
pub type DenseNode = DenseRow;

/// The walk over a record's block at its start: in front of group 0, whatever
/// the record holds.
pub fn start(_record: &Record) -> Walk {
    Walk::Before(0)
}

/// A position in nanodegrees: offset + granularity * raw, wrapping.
pub fn nanodegrees(offset: i64, granularity: i32, raw: i64) -> i64 {
    offset.wrapping_add(i64::from(granularity).wrapping_mul(raw))
}

/// The next element, and the state to take the next step on.
pub fn step(buffer: &[u8], record: &Record, walk: Walk, mode: Mode) -> (Answer<Element>, Walk) {
    let mut walk = walk;
    let answer = walk.advance(buffer, record, mode);
    (answer, walk)
}

impl Walk {
    /// The same step in place. On an ended state it says ended before any
    /// test; then record and state are tested (14). The end and a refusal
    /// leave the ended state.
    pub fn advance(&mut self, buffer: &[u8], record: &Record, mode: Mode) -> Answer<Element> {
        if matches!(self, Walk::Ended) {
            return Answer::Ended;
        }
        if !record.is_inside(buffer) || !self.is_inside(buffer, record) {
            *self = Walk::Ended;
            return Answer::Refused(OUTSIDE);
        }
        let answer = self.find_element(buffer, record, mode);
        if !matches!(answer, Answer::Item(_)) {
            *self = Walk::Ended;
        }
        answer
    }

    /// A state is outside where a range in it is, or where its group number is
    /// not below the count; between groups the count itself is the end.
    fn is_inside(&self, buffer: &[u8], record: &Record) -> bool {
        match self {
            Walk::Ended => true,
            Walk::Before(number) => *number <= record.group_count,
            Walk::Inside(inside) => inside.group < record.group_count && inside.is_inside(buffer),
        }
    }

    /// Goes through the groups until there is an element or the end.
    fn find_element(&mut self, buffer: &[u8], record: &Record, mode: Mode) -> Answer<Element> {
        loop {
            match self {
                Walk::Ended => return Answer::Ended,
                Walk::Before(group) if *group == record.group_count => return Answer::Ended,
                Walk::Before(group) => match InGroup::enter(buffer, record, *group, mode) {
                    Ok(inside) => *self = Walk::Inside(inside),
                    Err(number) => return Answer::Refused(number),
                },
                Walk::Inside(inside) => match inside.next(buffer, mode) {
                    Answer::Ended => *self = Walk::Before(inside.group + 1),
                    answer => return answer,
                },
            }
        }
    }
}

impl InGroup {
    /// Enters a group: its table entry, the dense pass over all its fields,
    /// the dense message, and in a full walk the fields of DenseInfo.
    fn enter(buffer: &[u8], record: &Record, group: u64, mode: Mode) -> Result<InGroup, Refusal> {
        let (start, len) = scan::group(buffer, record, group)?;
        let message = dense_pass(buffer, start, len)?;
        let dense = DenseNodes::read(buffer, message.start, message.len)?;
        let info = match mode {
            Mode::Full => DenseInfo::read(buffer, dense.info.start, dense.info.len)?,
            Mode::Plain => DenseInfo::default(),
        };
        let rows = DenseRows::new(&dense, &info);
        let place = Place::Dense { message, rows };
        Ok(InGroup {
            group,
            start,
            len,
            place,
        })
    }

    fn is_inside(&self, buffer: &[u8]) -> bool {
        let place = match &self.place {
            Place::Dense { message, rows } => message.is_inside(buffer) && rows.is_inside(buffer),
            Place::Nodes(m) | Place::Ways(m) | Place::Relations(m) => m.is_inside(buffer),
        };
        place && Part::at(self.start, self.len).is_inside(buffer)
    }

    /// The group's next element: dense nodes, nodes, ways, relations.
    fn next(&mut self, buffer: &[u8], mode: Mode) -> Answer<Element> {
        let group = self.group;
        loop {
            let found = match &mut self.place {
                Place::Dense { message, rows } => next_dense(buffer, *message, rows, mode),
                Place::Nodes(messages) => next_loose(buffer, messages, mode, node),
                Place::Ways(messages) => next_loose(buffer, messages, mode, way),
                Place::Relations(messages) => next_loose(buffer, messages, mode, relation),
            };
            match found {
                Ok(Some((message, body))) => {
                    return Answer::Item(Element {
                        group,
                        message,
                        body,
                    })
                }
                Ok(None) if self.next_phase() => {}
                Ok(None) => return Answer::Ended,
                Err(number) => return Answer::Refused(number),
            }
        }
    }

    /// Moves on to the next kind of element, if there is one.
    fn next_phase(&mut self) -> bool {
        let messages = |field| Messages::new(field, self.start, self.len);
        self.place = match self.place {
            Place::Dense { .. } => Place::Nodes(messages(NODE)),
            Place::Nodes(_) => Place::Ways(messages(WAY)),
            Place::Ways(_) => Place::Relations(messages(RELATION)),
            Place::Relations(_) => return false,
        };
        true
    }
}

/// What a step finds in a group: the message, and the element in it.
type Found = Result<Option<(Part, Body)>, Refusal>;

fn next_dense(buffer: &[u8], message: Part, from: &mut DenseRows, mode: Mode) -> Found {
    let row = from.next(buffer, mode == Mode::Full)?;
    Ok(row.map(|row| (message, Body::Dense(row))))
}

/// The next message of its field, read by its view.
fn next_loose(
    buffer: &[u8],
    from: &mut Messages,
    mode: Mode,
    read: fn(&[u8], Part, Mode) -> Result<Body, Refusal>,
) -> Found {
    let Some(message) = next_message(buffer, from)? else {
        return Ok(None);
    };
    Ok(Some((message, read(buffer, message, mode)?)))
}

fn node(buffer: &[u8], message: Part, mode: Mode) -> Result<Body, Refusal> {
    let mut node = Node::read(buffer, message.start, message.len)?;
    node.info = info_for(mode, node.info);
    Ok(Body::Node(node))
}

fn way(buffer: &[u8], message: Part, mode: Mode) -> Result<Body, Refusal> {
    let mut way = Way::read(buffer, message.start, message.len)?;
    way.info = info_for(mode, way.info);
    Ok(Body::Way(way))
}

fn relation(buffer: &[u8], message: Part, mode: Mode) -> Result<Body, Refusal> {
    let mut relation = Relation::read(buffer, message.start, message.len)?;
    relation.info = info_for(mode, relation.info);
    Ok(Body::Relation(relation))
}

fn next_message(buffer: &[u8], messages: &mut Messages) -> Result<Option<Part>, Refusal> {
    let (answer, next) = messages_step(buffer, *messages);
    *messages = next;
    match answer {
        Answer::Item(message) => Ok(Some(message)),
        Answer::Ended => Ok(None),
        Answer::Refused(number) => Err(number),
    }
}

/// In a plain element Info is not present.
fn info_for(mode: Mode, info: Part) -> Part {
    match mode {
        Mode::Full => info,
        Mode::Plain => Part::ABSENT,
    }
}
