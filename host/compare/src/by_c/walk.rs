//! Walks through C, with the walks over each element's tags, references and
//! members, in the words of the other sides. All of them go by single calls
//! and in batches, and every number that they give is the simple reader's.

use reader::Mode;

use super::ahead::{self, Ahead};
use super::block::scanned;
use super::ends;
use super::faults::Faults;
use super::lent::Lent;
use super::record::Numbers;
use super::refusals;
use super::shape::{NUMBER, bytes as bytes_of, numbers};
use super::slotted::{Reads, Slotted, WALK};
use super::starts::{MEMBERS_START, RAW_TAGS_START, REFS_START, Start, TAGS_START};
use super::told::told;
use super::views::INFO;
use crate::text::Words;

/// What stands behind the numbers of an element that is handed to a start.
const BEHIND: u64 = 0x5a5a_5a5a_5a5a_5a5a;

pub fn answer(bytes: &[u8], mode: Mode) -> String {
    match scanned(bytes) {
        Ok((buffer, numbers)) => walked(&buffer, &numbers, mode),
        Err(code) => format!("unscanned {code}"),
    }
}

/// A whole walk over a buffer by a record.
pub fn walked(buffer: &[u8], numbers: &Numbers, mode: Mode) -> String {
    let mut walk = Walked {
        reads: Reads::new(buffer, numbers),
        mode,
        seen: [false; 4],
        faults: Faults::default(),
        out: Words::new(),
    };
    walk.all();
    walk.faults.put(&mut walk.out);
    walk.out.done()
}

/// The state before the first group.
pub fn start(mode: Mode, faults: &mut Faults) -> Vec<u8> {
    let call = match mode {
        Mode::Plain => proved::walk,
        Mode::Full => proved::walk_full,
    };
    let mut slot = Lent::room(proved::WALK_SIZE + NUMBER);
    for short in [proved::WALK_SIZE - 1, 0] {
        let code = call(&mut slot.slice()[..short]);
        let refused = code == proved::OUTSIDE && slot.is_unchanged();
        faults.unless(refused, "a start in a short slot is not refused with 14");
    }
    let started = call(slot.slice()) == proved::OK;
    faults.unless(started, "the walk does not start");
    let held = (WALK.held)(slot.slice());
    let kept = slot.is_unchanged_but(0..held);
    faults.unless(kept, "a start changed what it must not");
    slot.slice()[..proved::WALK_SIZE].to_vec()
}

/// An element's numbers as the bytes that C gave.
pub fn element_bytes(element: &[u64]) -> Vec<u8> {
    let mut element = element.to_vec();
    element.resize(proved::ELEMENT_SIZE / NUMBER, BEHIND);
    bytes_of(&element)
}

struct Walked {
    reads: Reads,
    mode: Mode,
    /// The kinds of elements that were met.
    seen: [bool; 4],
    faults: Faults,
    out: Words,
}

impl Walked {
    fn all(&mut self) {
        let start = start(self.mode, &mut self.faults);
        refusals::put(&WALK, &mut self.reads, &start, &mut self.faults);
        ends::put(&mut self.reads, &mut self.faults);
        let ahead = self.ahead(&WALK, &start);
        for item in &ahead.items {
            self.element(item);
        }
        self.end(ahead.code);
        // Once for all calls: the buffer is long where they are many.
        let kept = self.reads.is_unchanged();
        self.faults.unless(kept, "what a call reads changed");
    }

    /// What a state has ahead, which is what the simple reader has.
    fn ahead(&mut self, walk: &'static Slotted, state: &[u8]) -> Ahead {
        let ahead = ahead::through_c(walk, &mut self.reads, state, &mut self.faults);
        let record = self.reads.record();
        let expected = (walk.by_reader)(&numbers(state), self.reads.buffer(), &record);
        let same = ahead == expected;
        self.faults
            .unless(same, "the simple reader gives other numbers");
        ahead
    }

    fn end(&mut self, code: u32) {
        self.out
            .end(Some(code).filter(|&code| code != proved::ENDED));
    }

    fn element(&mut self, item: &[u64]) {
        let group = item[proved::ELEMENT_GROUP / NUMBER];
        let view = &item[proved::ELEMENT_VIEW / NUMBER..];
        let kind = item[proved::ELEMENT_KIND / NUMBER] as usize;
        let letter = ["d", "n", "w", "r"].get(kind).unwrap_or(&"no kind");
        self.out.put(letter).put(group).put(view[0] as i64);
        match kind {
            proved::ELEMENT_DENSE_NODE => {
                self.position(view);
                self.dense_info(view);
            }
            proved::ELEMENT_NODE => {
                self.position(view);
                self.info(view, proved::NODE_INFO);
            }
            proved::ELEMENT_WAY => self.info(view, proved::WAY_INFO),
            _ => self.info(view, proved::RELATION_INFO),
        }
        self.sub_walks(kind, &element_bytes(item));
    }

    /// Raw, and in nanodegrees.
    fn position(&mut self, view: &[u64]) {
        let (lat, lon) = (
            view[proved::NODE_LAT / NUMBER],
            view[proved::NODE_LON / NUMBER],
        );
        self.out.put(lat as i64).put(lon as i64);
        let told = ends::nanodegrees(&mut self.reads, lat as i64, lon as i64);
        if told.code == proved::OK {
            for place in [proved::NANODEGREES_LAT, proved::NANODEGREES_LON] {
                self.out.put(proved::number(&told.answer, place) as i64);
            }
        }
        self.faults
            .unless(told.code == proved::OK, "no position in nanodegrees");
        self.faults.join(told.faults);
    }

    /// In a full walk `~`, or the numbers of a dense node's info; in a plain
    /// one none is read.
    fn dense_info(&mut self, view: &[u64]) {
        let at = proved::DENSE_NODE_INFO / NUMBER;
        match (self.mode, view[at] as usize) {
            (Mode::Plain, proved::INFO_UNREAD) => {}
            (Mode::Full, proved::INFO_MISSING) => {
                self.out.put('~');
            }
            (Mode::Full, proved::INFO_READ) => {
                for &number in &view[at + 1..] {
                    self.out.put(number as i64);
                }
            }
            (_, other) => {
                self.out.put("info").put(other);
            }
        }
    }

    /// In a full walk the place of an element's Info and what its view reads;
    /// in a plain walk none is handed out.
    fn info(&mut self, view: &[u64], place: usize) {
        let [present, start, len] = [0, 1, 2].map(|at| view[place / NUMBER + at]);
        if self.mode == Mode::Plain {
            if [present, start, len] != [0; 3] {
                self.out.put("info in a plain walk");
            }
            return;
        }
        self.out.put(present).put(start).put(len);
        let told = told(proved::INFO_SIZE, |out| {
            proved::info(self.reads.buffer(), start as usize, len as usize, out)
        });
        self.out.put(told.text(&INFO.shape, 0));
    }

    fn sub_walks(&mut self, kind: usize, element: &[u8]) {
        let first = !std::mem::replace(&mut self.seen[kind.min(3)], true);
        let tags = self.sub_walk(&TAGS_START, element, first);
        let may_have = proved::has_tags(self.reads.buffer(), element);
        let right = may_have || tags.items.is_empty();
        self.faults.unless(right, "tags where there are none");
        for tag in &tags.items {
            self.text(tag, proved::TAG_KEY_START, proved::TAG_KEY_LENGTH);
            self.text(tag, proved::TAG_VAL_START, proved::TAG_VAL_LENGTH);
        }
        self.end(tags.code);
        self.sub_walk(&RAW_TAGS_START, element, first);
        let refs = self.sub_walk(&REFS_START, element, first);
        let members = self.sub_walk(&MEMBERS_START, element, first);
        for reference in &refs.items {
            self.out.put(reference[0] as i64);
        }
        if kind == proved::ELEMENT_WAY {
            self.end(refs.code);
        }
        for member in &members.items {
            self.member(member);
        }
        if kind == proved::ELEMENT_RELATION {
            self.end(members.code);
        }
    }

    /// A walk over something of an element, from its start on; of the first
    /// element of a kind also what its calls refuse.
    fn sub_walk(&mut self, start: &Start, element: &[u8], first: bool) -> Ahead {
        let (code, state) = start.started(element, &mut self.faults);
        self.faults.unless(code == proved::OK, "no start");
        if first && !ahead::is_ended(&state) {
            refusals::put(start.walk, &mut self.reads, &state, &mut self.faults);
        }
        self.ahead(start.walk, &state)
    }

    /// The text in a range of the buffer, by the places of its two numbers.
    fn text(&mut self, item: &[u64], start: usize, len: usize) {
        let (start, len) = (item[start / NUMBER] as usize, item[len / NUMBER] as usize);
        let end = start.saturating_add(len);
        match self.reads.buffer().get(start..end) {
            Some(text) => self.out.bytes(text),
            None => self.out.put("outside"),
        };
    }

    fn member(&mut self, member: &[u64]) {
        let role = member[proved::MEMBER_ROLE / NUMBER];
        self.out.put(role as i64);
        let told = ends::role(&mut self.reads, role as i64);
        match told.code {
            proved::OK => self.text(
                &numbers(&told.answer),
                proved::RANGE_START,
                proved::RANGE_LENGTH,
            ),
            proved::NONE => {
                self.out.put('~');
            }
            refused => {
                self.out.put('!').put(refused);
            }
        }
        self.faults.join(told.faults);
        for place in [proved::MEMBER_TYPE, proved::MEMBER_ID] {
            self.out.put(member[place / NUMBER] as i64);
        }
    }
}
