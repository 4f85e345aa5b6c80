//! From a model to bytes, in one of many legal spellings: overlong varints,
//! dropped bits, columns as type 0, empty occurrences, earlier scalars and
//! string tables that do not count, unknown fields, and fields in any order.
//! One fault can be put into one message on the way.

use std::collections::{BTreeMap, VecDeque};

use crate::encode::{padded_varint, tag, varint, varint_field, LEN, VARINT};
use crate::fault::put_fault;
use crate::model::{Block, Common, Dense, Group, Info, Message, Node, Relation, Way};
use crate::prng::Prng;
use crate::unknown::{nested_groups, unknown_field};

/// The chunks of a message, each a whole field under its number. Only the
/// order of chunks of one number matters to a reader.
pub type Chunks = Vec<(u32, Vec<u8>)>;

/// The number under which chunks stand that may be placed anywhere.
const ANYWHERE: u32 = u32::MAX;

/// Spells models; oddness 0 is the shortest spelling in schema order.
pub struct Speller<'r> {
    rng: &'r mut Prng,
    /// Percent of choices that are odd.
    oddness: usize,
    /// How many messages have been spelled.
    messages: usize,
    /// The message of this number gets a fault.
    fault_at: Option<usize>,
}

/// A varint, in `percent` of a hundred cases overlong.
pub fn spell_varint(rng: &mut Prng, value: u64, percent: usize) -> Vec<u8> {
    if !rng.chance(percent) {
        return varint(value);
    }
    let shortest = varint(value).len();
    let len = shortest + rng.below(11 - shortest);
    let len = if rng.chance(20) { 10 } else { len };
    let dropped = rng.byte();
    padded_varint(value, len, dropped)
}

/// The block in shortest spelling and schema order.
pub fn spell_plain(block: &Block) -> Vec<u8> {
    let mut rng = Prng::new(0);
    Speller::new(&mut rng, 0).block(block)
}

/// The block in a random legal spelling.
pub fn spell_oddly(rng: &mut Prng, oddness: usize, block: &Block) -> Vec<u8> {
    Speller::new(rng, oddness).block(block)
}

/// The block with one fault in one of its messages.
pub fn spell_with_fault(rng: &mut Prng, oddness: usize, block: &Block) -> Vec<u8> {
    let mut counter = Speller::new(rng, 0);
    counter.block(block);
    let messages = counter.messages();
    let at = rng.below(messages);
    Speller::with_fault(rng, oddness, at).block(block)
}

impl<'r> Speller<'r> {
    pub fn new(rng: &'r mut Prng, oddness: usize) -> Speller<'r> {
        Speller {
            rng,
            oddness,
            messages: 0,
            fault_at: None,
        }
    }

    /// A speller that puts a fault into the message that it finishes as the
    /// one of this number, counted from 0; inner messages are finished first.
    pub fn with_fault(rng: &'r mut Prng, oddness: usize, at: usize) -> Speller<'r> {
        Speller {
            fault_at: Some(at),
            ..Speller::new(rng, oddness)
        }
    }

    /// How many messages have been finished.
    pub fn messages(&self) -> usize {
        self.messages
    }

    pub fn block(&mut self, block: &Block) -> Vec<u8> {
        let mut chunks = Chunks::new();
        if !block.strings.is_empty() || self.odd() {
            self.earlier_string_tables(&mut chunks);
            let table = self.string_table(&block.strings);
            self.part(&mut chunks, 1, &table);
        }
        for group in &block.groups {
            let group = self.group(group);
            self.part(&mut chunks, 2, &group);
        }
        for (field, value) in (17..).zip(block.scalars) {
            self.scalar(&mut chunks, field, value);
        }
        self.finish(Message::Block, chunks)
    }

    pub fn string_table(&mut self, strings: &[Vec<u8>]) -> Vec<u8> {
        let mut chunks = Chunks::new();
        for string in strings {
            self.part(&mut chunks, 1, string);
        }
        self.finish(Message::StringTable, chunks)
    }

    pub fn group(&mut self, group: &Group) -> Vec<u8> {
        let mut chunks = Chunks::new();
        for node in &group.nodes {
            let node = self.node(node);
            self.part(&mut chunks, 1, &node);
        }
        if let Some(dense) = &group.dense {
            let dense = self.dense(dense);
            self.part(&mut chunks, 2, &dense);
        }
        for way in &group.ways {
            let way = self.way(way);
            self.part(&mut chunks, 3, &way);
        }
        for relation in &group.relations {
            let relation = self.relation(relation);
            self.part(&mut chunks, 4, &relation);
        }
        self.finish(Message::Group, chunks)
    }

    pub fn node(&mut self, node: &Node) -> Vec<u8> {
        let mut chunks = self.common(&node.common);
        self.scalar(&mut chunks, 8, node.lat);
        self.scalar(&mut chunks, 9, node.lon);
        self.finish(Message::Node, chunks)
    }

    pub fn way(&mut self, way: &Way) -> Vec<u8> {
        let mut chunks = self.common(&way.common);
        self.column(&mut chunks, 8, &way.refs);
        self.column(&mut chunks, 9, &way.lats);
        self.column(&mut chunks, 10, &way.lons);
        if let Some(pins) = &way.pins {
            self.part(&mut chunks, 20, pins);
        }
        self.finish(Message::Way, chunks)
    }

    pub fn relation(&mut self, relation: &Relation) -> Vec<u8> {
        let mut chunks = self.common(&relation.common);
        self.column(&mut chunks, 8, &relation.roles);
        self.column(&mut chunks, 9, &relation.memids);
        self.column(&mut chunks, 10, &relation.types);
        self.finish(Message::Relation, chunks)
    }

    pub fn dense(&mut self, dense: &Dense) -> Vec<u8> {
        let mut chunks = Chunks::new();
        self.column(&mut chunks, 1, &dense.ids);
        if let Some(info) = &dense.info {
            let info = self.dense_info(info);
            self.info_part(&mut chunks, 5, &info);
        }
        self.column(&mut chunks, 8, &dense.lats);
        self.column(&mut chunks, 9, &dense.lons);
        self.column(&mut chunks, 10, &dense.keys_vals);
        self.finish(Message::DenseNodes, chunks)
    }

    pub fn dense_info(&mut self, columns: &[Vec<u64>; 6]) -> Vec<u8> {
        let mut chunks = Chunks::new();
        for (field, column) in (1..).zip(columns) {
            self.column(&mut chunks, field, column);
        }
        self.finish(Message::DenseInfo, chunks)
    }

    pub fn info(&mut self, info: &Info) -> Vec<u8> {
        let mut chunks = Chunks::new();
        for (field, &value) in (1..).zip(info) {
            self.scalar(&mut chunks, field, value);
        }
        self.finish(Message::Info, chunks)
    }

    /// id, keys, vals and info, which stand alike in three messages.
    fn common(&mut self, common: &Common) -> Chunks {
        let mut chunks = Chunks::new();
        self.scalar(&mut chunks, 1, common.id);
        self.column(&mut chunks, 2, &common.keys);
        self.column(&mut chunks, 3, &common.vals);
        if let Some(info) = &common.info {
            let info = self.info(info);
            self.info_part(&mut chunks, 4, &info);
        }
        chunks
    }

    fn odd(&mut self) -> bool {
        self.oddness > 0 && self.rng.chance(self.oddness)
    }

    fn varint(&mut self, value: u64) -> Vec<u8> {
        spell_varint(self.rng, value, self.oddness)
    }

    /// A scalar; sometimes others before it, which the last one overrides.
    fn scalar(&mut self, chunks: &mut Chunks, field: u32, value: Option<u64>) {
        let Some(value) = value else { return };
        if self.odd() {
            // Granularities are tested at each occurrence, so this stays small.
            let overridden = self.rng.below(1000) as u64;
            chunks.push((field, varint_field(field, overridden)));
        }
        let bytes = [self.varint(tag(field, VARINT)), self.varint(value)].concat();
        chunks.push((field, bytes));
    }

    /// A length-delimited field.
    fn part(&mut self, chunks: &mut Chunks, field: u32, payload: &[u8]) {
        let head = [
            self.varint(tag(field, LEN)),
            self.varint(payload.len() as u64),
        ]
        .concat();
        chunks.push((field, [&head, payload].concat()));
    }

    /// A column as type 2, or as type 0 where it has one value; sometimes with
    /// empty occurrences around it.
    fn column(&mut self, chunks: &mut Chunks, field: u32, values: &[u64]) {
        let empties = if self.odd() { 1 + self.rng.below(2) } else { 0 };
        for _ in 0..empties {
            self.part(chunks, field, &[]);
        }
        let payload: Vec<u8> = values.iter().flat_map(|&v| self.varint(v)).collect();
        match values {
            [] => {}
            [_] if self.odd() => {
                let bytes = [self.varint(tag(field, VARINT)), payload].concat();
                chunks.push((field, bytes));
            }
            _ => self.part(chunks, field, &payload),
        }
        if self.odd() {
            self.part(chunks, field, &[]);
        }
    }

    /// An Info or DenseInfo; sometimes empty ones before and after it.
    fn info_part(&mut self, chunks: &mut Chunks, field: u32, payload: &[u8]) {
        if self.odd() {
            self.part(chunks, field, &[]);
        }
        self.part(chunks, field, payload);
        if self.odd() {
            self.part(chunks, field, &[]);
        }
    }

    /// String tables that the last one overrides; nobody reads inside them.
    fn earlier_string_tables(&mut self, chunks: &mut Chunks) {
        if self.odd() {
            let len = self.rng.below(5);
            let garbage = self.rng.bytes(len);
            self.part(chunks, 1, &garbage);
        }
    }

    /// Adds unknown fields, puts in the fault that is due, and orders the
    /// chunks: those of one number keep their order, all else is free.
    fn finish(&mut self, message: Message, mut chunks: Chunks) -> Vec<u8> {
        while self.odd() && chunks.len() < 40 {
            // No view takes the wire type of a group, so any number will do.
            let unknown = if self.rng.chance(10) {
                let depth = 14 + self.rng.below(3);
                nested_groups(self.rng, depth)
            } else {
                unknown_field(self.rng, message)
            };
            chunks.push((ANYWHERE, unknown));
        }
        if self.fault_at == Some(self.messages) {
            put_fault(self.rng, message, &mut chunks);
        }
        self.messages += 1;
        if self.odd() {
            self.interleave(chunks)
        } else {
            chunks.into_iter().flat_map(|(_, bytes)| bytes).collect()
        }
    }

    fn interleave(&mut self, chunks: Chunks) -> Vec<u8> {
        let mut order: Vec<u32> = chunks.iter().map(|(number, _)| *number).collect();
        self.rng.shuffle(&mut order);
        let mut queues: BTreeMap<u32, VecDeque<Vec<u8>>> = BTreeMap::new();
        for (number, bytes) in chunks {
            queues.entry(number).or_default().push_back(bytes);
        }
        let next = |number| queues.get_mut(&number).and_then(VecDeque::pop_front);
        order.into_iter().filter_map(next).flatten().collect()
    }
}
