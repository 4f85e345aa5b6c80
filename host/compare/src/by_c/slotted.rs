//! The walks through C, by one shape: each goes on a state in a slot, by calls
//! that give one item and by calls that give as many as there is room for.

use reader::Record;

use super::ahead::Ahead;
use super::lent::Lent;
use super::record::{self, GROUPS, Numbers};
use super::shape::{NUMBER, bytes as bytes_of};
use super::states;

/// What calls read: a buffer and a record, lent again and again.
pub struct Reads {
    buffer: Lent,
    record: Lent,
    numbers: Numbers,
}

impl Reads {
    pub fn new(buffer: &[u8], numbers: &Numbers) -> Reads {
        Reads {
            buffer: Lent::bytes(buffer),
            record: Lent::bytes(&bytes_of(numbers)),
            numbers: *numbers,
        }
    }

    /// An empty buffer, and no record.
    pub fn nothing() -> Reads {
        Reads {
            buffer: Lent::bytes(&[]),
            record: Lent::bytes(&[]),
            numbers: record::NONE,
        }
    }

    /// Puts other bytes into the record's slice.
    pub fn lend_record(&mut self, record: &[u8]) {
        self.record = Lent::bytes(record);
    }

    pub fn buffer(&mut self) -> &mut [u8] {
        self.buffer.slice()
    }

    /// The buffer and the record's slice.
    pub fn both(&mut self) -> (&mut [u8], &mut [u8]) {
        (self.buffer.slice(), self.record.slice())
    }

    pub fn numbers(&self) -> &Numbers {
        &self.numbers
    }

    /// The record as the simple reader has it.
    pub fn record(&self) -> Record {
        record::read(&self.numbers)
    }

    pub fn is_unchanged(&self) -> bool {
        self.buffer.is_unchanged() && self.is_record_unchanged()
    }

    pub fn is_record_unchanged(&self) -> bool {
        self.record.is_unchanged()
    }

    /// More items than any walk has: one for each byte of each group, and of
    /// the state's own ranges, which need not be a group's.
    pub fn most(&mut self) -> usize {
        let groups = usize::try_from(self.numbers[GROUPS]).unwrap_or(0);
        (groups.min(self.buffer().len()) + 4) * (self.buffer().len() + 1)
    }
}

/// One item a call.
pub type One = fn(&mut Reads, &mut [u8], &mut [u8]) -> u32;
/// As many as there is room for, and their count.
pub type Many = fn(&mut Reads, &mut [u8], &mut [u8], &mut [u8]) -> u32;

pub struct Slotted {
    /// Bytes of a state, and how many of them the end sets to 0.
    pub state: usize,
    pub ended: usize,
    /// How many bytes of the slot are the state's own, by its bytes.
    pub held: fn(&[u8]) -> usize,
    /// Bytes of an item, and how many of them are written, by its bytes.
    pub item: usize,
    pub written: fn(&[u8]) -> usize,
    /// The functions that give one item, which take turns.
    pub one: &'static [One],
    pub many: Many,
    /// Whether the calls take a record.
    pub by_record: bool,
    /// What the simple reader has ahead on a state of these numbers.
    pub by_reader: fn(&[u64], &[u8], &Record) -> Ahead,
}

pub const WALK: Slotted = Slotted {
    state: proved::WALK_SIZE,
    ended: NUMBER,
    held: states::held_by_walk,
    item: proved::ELEMENT_SIZE,
    written: written_of_element,
    one: &[
        |reads, state, out| {
            let (buffer, record) = reads.both();
            proved::step(buffer, record, state, out)
        },
        |reads, state, out| {
            let (buffer, record) = reads.both();
            proved::next(buffer, record, state, out)
        },
    ],
    many: |reads, state, out, count| {
        let (buffer, record) = reads.both();
        proved::steps(buffer, record, state, out, count)
    },
    by_record: true,
    by_reader: states::walk,
};

pub const TAGS: Slotted = Slotted {
    state: proved::TAGS_SIZE,
    ended: proved::TAGS_SIZE,
    held: |_| proved::TAGS_SIZE,
    item: proved::TAG_SIZE,
    written: |_| proved::TAG_SIZE,
    one: &[|reads, state, out| {
        let (buffer, record) = reads.both();
        proved::tag(buffer, record, state, out)
    }],
    many: |reads, state, out, count| {
        let (buffer, record) = reads.both();
        proved::tags(buffer, record, state, out, count)
    },
    by_record: true,
    by_reader: states::tags,
};

pub const RAW_TAGS: Slotted = Slotted {
    item: proved::RAW_TAG_SIZE,
    written: |_| proved::RAW_TAG_SIZE,
    one: &[|reads, state, out| proved::raw_tag(reads.buffer(), state, out)],
    many: |reads, state, out, count| proved::raw_tags(reads.buffer(), state, out, count),
    by_record: false,
    by_reader: states::raw_tags,
    ..TAGS
};

pub const REFS: Slotted = Slotted {
    state: proved::REFS_SIZE,
    ended: proved::REFS_SIZE,
    held: |_| proved::REFS_SIZE,
    item: proved::REF_SIZE,
    written: |_| proved::REF_SIZE,
    one: &[|reads, state, out| proved::r#ref(reads.buffer(), state, out)],
    many: |reads, state, out, count| proved::refs(reads.buffer(), state, out, count),
    by_record: false,
    by_reader: states::refs,
};

pub const MEMBERS: Slotted = Slotted {
    state: proved::MEMBERS_SIZE,
    ended: proved::MEMBERS_SIZE,
    held: |_| proved::MEMBERS_SIZE,
    item: proved::MEMBER_SIZE,
    written: |_| proved::MEMBER_SIZE,
    one: &[|reads, state, out| {
        let (buffer, record) = reads.both();
        proved::member(buffer, record, state, out)
    }],
    many: |reads, state, out, count| {
        let (buffer, record) = reads.both();
        proved::members(buffer, record, state, out, count)
    },
    by_record: true,
    by_reader: states::members,
};

/// The bytes of an element's numbers, by its kind.
fn written_of_element(element: &[u8]) -> usize {
    let info = proved::number(element, proved::ELEMENT_VIEW + proved::DENSE_NODE_INFO) as usize;
    let view = match proved::number(element, proved::ELEMENT_KIND) as usize {
        proved::ELEMENT_DENSE_NODE if info == proved::INFO_READ => proved::DENSE_NODE_SIZE,
        proved::ELEMENT_DENSE_NODE => proved::DENSE_NODE_INFO + NUMBER,
        proved::ELEMENT_NODE => proved::NODE_SIZE,
        proved::ELEMENT_RELATION => proved::RELATION_SIZE,
        _ => proved::WAY_SIZE,
    };
    proved::ELEMENT_VIEW + view
}
