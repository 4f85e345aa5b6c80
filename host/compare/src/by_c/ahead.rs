//! What a walk's state has ahead: its items by their numbers, and the code
//! behind them. Through C it is gathered by calls that give one item and by
//! calls that give several, and both must give the same.

use reader::Answer;

use super::faults::Faults;
use super::lent::Lent;
use super::shape::{NUMBER, numbers};
use super::slotted::{Reads, Slotted};

#[derive(Debug, Default, PartialEq, Eq)]
pub struct Ahead {
    pub items: Vec<Vec<u64>>,
    pub code: u32,
}

impl Ahead {
    /// Nothing but a code.
    pub fn told(code: u32) -> Ahead {
        Ahead {
            items: Vec::new(),
            code,
        }
    }

    /// Where this and what the simple reader has ahead begin to differ.
    pub fn beside(&self, reader: &Ahead) -> String {
        let pairs = self.items.iter().zip(&reader.items);
        let same = pairs.take_while(|(one, other)| one == other).count();
        let shown = |ahead: &Ahead| format!("{:?}, then {}", ahead.items.get(same), ahead.code);
        format!(
            "item {same} through C {}; of the reader {}",
            shown(self),
            shown(reader)
        )
    }

    /// By the simple reader's steps.
    pub fn by_steps<S: Copy, T>(
        mut state: S,
        step: impl Fn(S) -> (Answer<T>, S),
        numbers: impl Fn(&T) -> Vec<u64>,
    ) -> Ahead {
        let mut items = Vec::new();
        loop {
            let (answer, next) = step(state);
            state = next;
            let code = match answer {
                Answer::Item(item) => {
                    items.push(numbers(&item));
                    continue;
                }
                Answer::Ended => proved::ENDED,
                Answer::Refused(number) => u32::from(number),
            };
            return Ahead { items, code };
        }
    }
}

/// Bytes behind a state and behind an answer's slice that are not theirs.
const SPARE: usize = 11;
/// The rooms of batches, in turn.
const ROOMS: [usize; 4] = [1, 2, 3, 7];
const MOST: usize = 7;

/// The slices of a walk's calls, lent again and again.
pub struct Slices {
    walk: &'static Slotted,
    state: Lent,
    out: Lent,
    count: Lent,
}

impl Slices {
    pub fn new(walk: &'static Slotted, state: &[u8]) -> Slices {
        let mut slot = Lent::room(walk.state + SPARE);
        slot.set(0, state);
        Slices {
            walk,
            state: slot,
            out: Lent::room((MOST + 1) * walk.item),
            count: Lent::room(NUMBER + SPARE),
        }
    }

    /// Lends the state of others.
    fn take_over(&mut self, others: &mut Slices) {
        let state = &others.state.slice()[..self.walk.state];
        self.state.set(0, state);
    }

    /// The state's bytes as they are now.
    pub fn state(&mut self) -> Vec<u8> {
        self.state.slice()[..self.walk.state].to_vec()
    }

    /// The bytes of the first item as they are now.
    pub fn item(&mut self) -> Vec<u8> {
        self.out.slice()[..self.walk.item].to_vec()
    }

    /// A call that gives one item, in so many bytes; the functions for it and
    /// the slot's lengths take turns.
    pub fn one(&mut self, reads: &mut Reads, turn: usize, room: usize) -> u32 {
        let spare = [0, SPARE][turn / 2 % 2];
        let call = self.walk.one[turn % self.walk.one.len()];
        let state = &mut self.state.slice()[..self.walk.state + spare];
        call(reads, state, &mut self.out.slice()[..room])
    }

    /// A call that gives several.
    pub fn many(&mut self, reads: &mut Reads, room: usize, count: usize) -> u32 {
        let out = &mut self.out.slice()[..room];
        (self.walk.many)(
            reads,
            self.state.slice(),
            out,
            &mut self.count.slice()[..count],
        )
    }

    /// A call with a slot of so many bytes.
    pub fn short(&mut self, reads: &mut Reads, len: usize, batch: bool) -> u32 {
        let (state, out) = (&mut self.state.slice()[..len], self.out.slice());
        match batch {
            true => (self.walk.many)(reads, state, out, self.count.slice()),
            false => self.walk.one[0](reads, state, out),
        }
    }

    /// Whether a call wrote nothing at all.
    pub fn are_unchanged(&self) -> bool {
        self.state.is_unchanged() && self.gave_nothing()
    }

    fn gave_nothing(&self) -> bool {
        self.out.is_unchanged() && self.count.is_unchanged()
    }

    /// A call that gave nothing left the ended state, and wrote nothing else.
    pub fn have_ended(&mut self, faults: &mut Faults) {
        let ended = self.walk.ended;
        let zeros = self.state.slice()[..ended].iter().all(|&byte| byte == 0);
        faults.unless(zeros, "the state has not ended");
        let kept = self.state.is_unchanged_but(0..ended);
        faults.unless(kept, "the end wrote more than the ended state");
        faults.unless(self.gave_nothing(), "a call without an item gave something");
    }

    /// What a call with so many items gave; the state that it left is the next
    /// one.
    fn taken(&mut self, items: usize, faults: &mut Faults) -> Vec<Vec<u64>> {
        let size = self.walk.item;
        let mut taken = Vec::with_capacity(items);
        let mut kept = self.out.is_unchanged_but(0..items * size);
        for at in (0..items).map(|item| item * size) {
            let item = &self.out.slice()[at..at + size];
            let written = (self.walk.written)(item);
            taken.push(numbers(&item[..written]));
            kept &= self.out.is_kept(at + written..at + size);
        }
        faults.unless(kept, "bytes beside the items changed");
        self.out.undo(0..items * size);
        let held = (self.walk.held)(self.state.slice());
        let kept = self.state.is_unchanged_but(0..held);
        faults.unless(kept, "bytes beside the state changed");
        self.state.keep(0..held);
        taken
    }

    /// The count that a call with several items gave.
    fn counted(&mut self, faults: &mut Faults) -> usize {
        let kept = self.count.is_unchanged_but(0..NUMBER);
        faults.unless(kept, "bytes beside the count changed");
        let count = proved::number(self.count.slice(), 0) as usize;
        self.count.undo(0..NUMBER);
        count
    }
}

/// From a state on, through C, in both ways.
pub fn through_c(
    walk: &'static Slotted,
    reads: &mut Reads,
    state: &[u8],
    faults: &mut Faults,
) -> Ahead {
    let ahead = singly(walk, reads, state, faults);
    let same = in_batches(walk, reads, state, faults) == ahead;
    faults.unless(same, "batches give something else");
    ahead
}

/// One item a call. Before each of them a slice that is a byte too short for
/// it is refused with 14.
fn singly(walk: &'static Slotted, reads: &mut Reads, state: &[u8], faults: &mut Faults) -> Ahead {
    let mut slices = Slices::new(walk, state);
    let mut short = Slices::new(walk, state);
    let mut items = Vec::new();
    let is_over = is_ended(state);
    for turn in 0..=reads.most() {
        if !is_over {
            short.take_over(&mut slices);
            let refused = short.one(reads, turn, walk.item - 1) == proved::OUTSIDE;
            faults.unless(refused, "a slice too short is not refused with 14");
            short.have_ended(faults);
        }
        let room = walk.item + [0, SPARE.min(walk.item)][turn % 2];
        let code = slices.one(reads, turn, room);
        if code != proved::OK {
            told(&mut slices, reads, is_over, faults);
            return Ahead { items, code };
        }
        items.extend(slices.taken(1, faults));
        let nothing_counted = slices.count.is_unchanged();
        faults.unless(nothing_counted, "a single item was counted");
    }
    faults.unless(false, "the walk does not end");
    Ahead { items, code: 0 }
}

/// Whether a state has ended, by its phase.
pub fn is_ended(state: &[u8]) -> bool {
    proved::number(state, proved::STATE_PHASE) == proved::PHASE_ENDED as u64
}

/// Behind the end and behind a number: the state has ended, and the next call
/// says so. One that had ended before is left as it is.
fn told(slices: &mut Slices, reads: &mut Reads, was_over: bool, faults: &mut Faults) {
    if was_over {
        faults.unless(slices.are_unchanged(), "an ended state is written");
        return;
    }
    slices.have_ended(faults);
    slices.state.keep(0..slices.walk.ended);
    for code in [slices.one(reads, 0, 0), slices.many(reads, 0, 0)] {
        faults.unless(code == proved::ENDED, "an ended state goes on");
    }
    faults.unless(slices.are_unchanged(), "an ended state is written");
}

/// As many items a call as there is room for.
fn in_batches(
    walk: &'static Slotted,
    reads: &mut Reads,
    state: &[u8],
    faults: &mut Faults,
) -> Ahead {
    let mut slices = Slices::new(walk, state);
    let mut items = Vec::new();
    let is_over = is_ended(state);
    let mut is_last = false;
    for turn in 0..=reads.most() {
        let room = ROOMS[turn % ROOMS.len()];
        // A byte less than one more item is no room for it.
        let bytes = room * walk.item + [0, walk.item - 1][turn / ROOMS.len() % 2];
        let code = slices.many(reads, bytes, NUMBER + [SPARE, 0][turn % 2]);
        if code != proved::OK {
            told(&mut slices, reads, is_over, faults);
            return Ahead { items, code };
        }
        faults.unless(!is_last, "more comes behind a batch that is not full");
        let count = slices.counted(faults);
        is_last = count < room;
        let due = (1..=room).contains(&count);
        faults.unless(due, "a batch of none or of more than there is room for");
        items.extend(slices.taken(count.min(room), faults));
    }
    faults.unless(false, "the walk in batches does not end");
    Ahead { items, code: 0 }
}
