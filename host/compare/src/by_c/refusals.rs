//! What every walk's calls refuse, put to a state that has not ended.

use super::ahead::Slices;
use super::faults::Faults;
use super::record;
use super::shape::{NUMBER, bytes as bytes_of};
use super::slotted::{Reads, Slotted};

/// Phases that no walk has.
const NO_PHASES: [u64; 5] = [6, 7, 1 << 32, (1 << 32) + 1, u64::MAX];

pub fn put(walk: &'static Slotted, reads: &mut Reads, state: &[u8], faults: &mut Faults) {
    leaves(walk, reads, state, faults);
    no_room(walk, reads, state, faults);
    for phase in NO_PHASES {
        let refused = refuses(walk, reads, &with_phase(state, phase), faults);
        faults.unless(refused, "a phase that there is not is not refused with 14");
    }
    if walk.by_record {
        no_records(walk, reads, state, faults);
    }
}

/// A slot that is too short, with 14, and one whose state has ended, with 101,
/// whatever its other numbers and all else that is lent are: both stay as they
/// are.
fn leaves(walk: &'static Slotted, reads: &mut Reads, state: &[u8], faults: &mut Faults) {
    let ended = with_phase(state, proved::PHASE_ENDED as u64);
    for state in [state, &ended] {
        let mut slices = Slices::new(walk, state);
        for (len, batch) in [(walk.state - 1, false), (0, false), (walk.state - 1, true)] {
            let refused = slices.short(reads, len, batch) == proved::OUTSIDE;
            faults.unless(refused, "a short slot is not refused with 14");
        }
        faults.unless(slices.are_unchanged(), "a short slot is written");
    }
    let mut nothing = Reads::nothing();
    let mut slices = Slices::new(walk, &ended);
    for turn in 0..walk.one.len() {
        let over = slices.one(&mut nothing, turn, 0) == proved::ENDED;
        faults.unless(over, "an ended state does not say so first");
    }
    let over = slices.many(&mut nothing, 0, 0) == proved::ENDED;
    faults.unless(over, "an ended state does not say so first");
    faults.unless(slices.are_unchanged(), "an ended state is written");
}

/// Room for no item, and a slice that is too short for the count.
fn no_room(walk: &'static Slotted, reads: &mut Reads, state: &[u8], faults: &mut Faults) {
    for (room, count) in [
        (0, NUMBER),
        (walk.item - 1, NUMBER),
        (walk.item, NUMBER - 1),
        (2 * walk.item, 0),
    ] {
        let mut slices = Slices::new(walk, state);
        let refused = slices.many(reads, room, count) == proved::OUTSIDE;
        faults.unless(refused, "a batch without room is not refused with 14");
        slices.have_ended(faults);
    }
}

/// What is no record, and what passes the buffer; a longer record is fine.
fn no_records(walk: &'static Slotted, reads: &mut Reads, state: &[u8], faults: &mut Faults) {
    let numbers = *reads.numbers();
    let outside = record::outside(&numbers, reads.buffer().len() as u64);
    let outside = outside.iter().map(|numbers| bytes_of(numbers));
    for record in record::none(&numbers).into_iter().chain(outside) {
        reads.lend_record(&record);
        let refused = refuses(walk, reads, state, faults);
        faults.unless(refused, "what is no record is not refused with 14");
        faults.unless(reads.is_record_unchanged(), "the record changed");
    }
    reads.lend_record(&record::longer(&numbers));
    let one = |reads: &mut Reads| Slices::new(walk, state).one(reads, 0, walk.item);
    let by_longer = one(reads);
    reads.lend_record(&bytes_of(&numbers));
    let same = one(reads) == by_longer;
    faults.unless(same, "a longer record is answered otherwise");
}

/// Whether calls of both kinds refuse with 14, and leave the ended state.
fn refuses(walk: &'static Slotted, reads: &mut Reads, state: &[u8], faults: &mut Faults) -> bool {
    let mut slices = Slices::new(walk, state);
    let one = slices.one(reads, 0, walk.item);
    slices.have_ended(faults);
    let mut slices = Slices::new(walk, state);
    let many = slices.many(reads, walk.item, NUMBER);
    slices.have_ended(faults);
    [one, many] == [proved::OUTSIDE; 2]
}

fn with_phase(state: &[u8], phase: u64) -> Vec<u8> {
    [&phase.to_le_bytes(), &state[NUMBER..]].concat()
}
