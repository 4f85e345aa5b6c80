//! The proved library's walks through C, as a camera does them: the slices for
//! items are made once, and no walk over tags is started where an element
//! surely has none. By single calls, and in batches.

use super::sum::Sum;
use super::{Sides, Walker, What};

/// Items of a batch.
const ELEMENTS: usize = 128;
const TAGS: usize = 64;
const REFS: usize = 512;
const MEMBERS: usize = 128;

pub fn sides(blocks: &[Vec<u8>]) -> Result<Sides, String> {
    let single = ThroughC::new(blocks, 1, Room::new(1, 1, 1))?;
    let batches = ThroughC::new(blocks, ELEMENTS, Room::new(TAGS, REFS, MEMBERS))?;
    Ok(vec![
        ("library", Box::new(single)),
        ("batches", Box::new(batches)),
    ])
}

struct ThroughC {
    blocks: Vec<Block>,
    elements: Vec<u8>,
    room: Room,
}

struct Block {
    buffer: Vec<u8>,
    record: [u8; proved::RECORD_SIZE],
}

/// The slices that are lent for what an element has, and for counts: one item
/// long for single calls.
struct Room {
    tags: Vec<u8>,
    refs: Vec<u8>,
    members: Vec<u8>,
    state: [u8; proved::MEMBERS_SIZE],
    count: [u8; proved::COUNT_SIZE],
}

impl Room {
    fn new(tags: usize, refs: usize, members: usize) -> Room {
        Room {
            tags: vec![0; tags * proved::TAG_SIZE],
            refs: vec![0; refs * proved::REF_SIZE],
            members: vec![0; members * proved::MEMBER_SIZE],
            state: [0; proved::MEMBERS_SIZE],
            count: [0; proved::COUNT_SIZE],
        }
    }
}

impl ThroughC {
    fn new(blocks: &[Vec<u8>], elements: usize, room: Room) -> Result<ThroughC, String> {
        let blocks: Result<_, _> = blocks.iter().map(|block| Block::scanned(block)).collect();
        Ok(ThroughC {
            blocks: blocks?,
            elements: vec![0; elements * proved::ELEMENT_SIZE],
            room,
        })
    }
}

impl Walker for ThroughC {
    fn blocks(&self) -> usize {
        self.blocks.len()
    }

    fn walk(&mut self, block: usize, what: What) -> Result<Sum, String> {
        let mut sum = Sum::default();
        self.blocks[block].walk(&mut self.elements, &mut self.room, what, &mut sum)?;
        Ok(sum)
    }

    fn check(&mut self, block: usize) -> Result<(), String> {
        let Block { buffer, record } = &mut self.blocks[block];
        match proved::check(buffer, record) {
            proved::OK => Ok(()),
            number => Err(refused(number)),
        }
    }

    fn has_check(&self) -> bool {
        true
    }
}

fn refused(number: u32) -> String {
    format!("refused with {number} through C")
}

impl Block {
    /// The block with its tables right behind it, and its record.
    fn scanned(block: &[u8]) -> Result<Block, String> {
        let mut buffer = block.to_vec();
        buffer.resize(proved::BUFFER_TIMES * block.len(), 0);
        let mut record = [0; proved::RECORD_SIZE];
        match proved::scan(&mut buffer, block.len(), &mut record) {
            proved::OK => {}
            number => return Err(refused(number)),
        }
        let number = |place| proved::number(&record, place) as usize;
        let entries = number(proved::RECORD_GROUPS) * proved::ENTRY_SIZE;
        buffer.truncate(number(proved::RECORD_GROUPTABLE) + entries);
        buffer.shrink_to_fit();
        Ok(Block { buffer, record })
    }

    fn walk(
        &mut self,
        elements: &mut [u8],
        room: &mut Room,
        what: What,
        sum: &mut Sum,
    ) -> Result<(), String> {
        let mut state = [0; proved::WALK_SIZE];
        proved::walk(&mut state);
        let batches = elements.len() > proved::ELEMENT_SIZE;
        loop {
            let code = if batches {
                let count = &mut room.count;
                proved::steps(
                    &mut self.buffer,
                    &mut self.record,
                    &mut state,
                    elements,
                    count,
                )
            } else {
                proved::step(&mut self.buffer, &mut self.record, &mut state, elements)
            };
            match code {
                proved::OK => {}
                proved::ENDED => return Ok(()),
                number => return Err(refused(number)),
            }
            let count = if batches { counted(room) } else { 1 };
            for element in elements.chunks_exact_mut(proved::ELEMENT_SIZE).take(count) {
                self.element(room, element, what, sum)?;
            }
        }
    }

    fn element(
        &mut self,
        room: &mut Room,
        element: &mut [u8],
        what: What,
        sum: &mut Sum,
    ) -> Result<(), String> {
        let kind = proved::number(element, proved::ELEMENT_KIND) as usize;
        let view = &element[proved::ELEMENT_VIEW..];
        sum.element(proved::number(view, proved::NODE_ID));
        if kind == proved::ELEMENT_DENSE_NODE || kind == proved::ELEMENT_NODE {
            sum.add(proved::number(view, proved::NODE_LAT));
            sum.add(proved::number(view, proved::NODE_LON));
        }
        if what == What::Elements {
            return Ok(());
        }
        if proved::has_tags(&self.buffer, element) {
            self.tags(room, element, sum)?;
        }
        match kind {
            proved::ELEMENT_WAY => self.refs(room, element, sum),
            proved::ELEMENT_RELATION => self.members(room, element, sum),
            _ => Ok(()),
        }
    }

    fn tags(&mut self, room: &mut Room, element: &mut [u8], sum: &mut Sum) -> Result<(), String> {
        proved::start_tags(element, &mut room.state);
        let size = proved::TAG_SIZE;
        loop {
            let (buffer, record) = (&mut self.buffer, &mut self.record);
            let code = if room.tags.len() > size {
                let count = &mut room.count;
                proved::tags(buffer, record, &mut room.state, &mut room.tags, count)
            } else {
                proved::tag(buffer, record, &mut room.state, &mut room.tags)
            };
            let count = given(code, room, room.tags.len() / size)?;
            for tag in room.tags.chunks_exact(size).take(count) {
                let text = |start, len| {
                    let start = proved::number(tag, start) as usize;
                    &self.buffer[start..start + proved::number(tag, len) as usize]
                };
                sum.tag(
                    text(proved::TAG_KEY_START, proved::TAG_KEY_LENGTH),
                    text(proved::TAG_VAL_START, proved::TAG_VAL_LENGTH),
                );
            }
            if is_last(count, room.tags.len() / size) {
                return Ok(());
            }
        }
    }

    fn refs(&mut self, room: &mut Room, element: &mut [u8], sum: &mut Sum) -> Result<(), String> {
        proved::start_refs(element, &mut room.state);
        let size = proved::REF_SIZE;
        loop {
            let code = if room.refs.len() > size {
                let count = &mut room.count;
                proved::refs(&mut self.buffer, &mut room.state, &mut room.refs, count)
            } else {
                proved::r#ref(&mut self.buffer, &mut room.state, &mut room.refs)
            };
            let count = given(code, room, room.refs.len() / size)?;
            for id in room.refs.chunks_exact(size).take(count) {
                sum.add(proved::number(id, 0));
            }
            if is_last(count, room.refs.len() / size) {
                return Ok(());
            }
        }
    }

    fn members(
        &mut self,
        room: &mut Room,
        element: &mut [u8],
        sum: &mut Sum,
    ) -> Result<(), String> {
        proved::start_members(element, &mut room.state);
        let size = proved::MEMBER_SIZE;
        loop {
            let (buffer, record) = (&mut self.buffer, &mut self.record);
            let code = if room.members.len() > size {
                let count = &mut room.count;
                proved::members(buffer, record, &mut room.state, &mut room.members, count)
            } else {
                proved::member(buffer, record, &mut room.state, &mut room.members)
            };
            let count = given(code, room, room.members.len() / size)?;
            for member in room.members.chunks_exact(size).take(count) {
                sum.add(proved::number(member, proved::MEMBER_ROLE));
                let case = proved::number(member, proved::MEMBER_CASE) as usize;
                if case != proved::MEMBER_UNKNOWN {
                    sum.add(proved::number(member, proved::MEMBER_ID));
                }
            }
            if is_last(count, room.members.len() / size) {
                return Ok(());
            }
        }
    }
}

fn counted(room: &Room) -> usize {
    proved::number(&room.count, 0) as usize
}

/// How many items a call gave: none at the end.
fn given(code: u32, room: &Room, most: usize) -> Result<usize, String> {
    match code {
        proved::OK if most > 1 => Ok(counted(room)),
        proved::OK => Ok(1),
        proved::ENDED => Ok(0),
        number => Err(refused(number)),
    }
}

/// Behind fewer items than there is room for comes the end: the blocks are
/// accepted.
fn is_last(count: usize, most: usize) -> bool {
    count < most
}
