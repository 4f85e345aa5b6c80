//! The messages of a field in a group, through C, step by step.

use super::around::{Around, BEHIND, told_in_both};
use super::faults::Faults;
use super::lent::Lent;
use super::shape::{NUMBER, bytes as bytes_of, numbers, part};
use super::told::{Told, told};
use crate::text::Words;

/// The numbers of a state, and which of them is which.
type State = [u64; proved::MESSAGES_SIZE / NUMBER];
const PHASE: usize = proved::MESSAGES_PHASE / NUMBER;
const START: usize = proved::MESSAGES_START / NUMBER;
const LENGTH: usize = proved::MESSAGES_LENGTH / NUMBER;
const PLACE: usize = proved::MESSAGES_PLACE / NUMBER;
const FIELD: usize = proved::MESSAGES_FIELD / NUMBER;

/// The ended state, as a step leaves it.
const ENDED: State = [0; proved::MESSAGES_SIZE / NUMBER];

/// The state at the start of a group.
fn first(start: u64, len: u64, field: u64) -> State {
    let at = proved::PHASE_AT as u64;
    with(
        &ENDED,
        &[(PHASE, at), (START, start), (LENGTH, len), (FIELD, field)],
    )
}

/// The state with some numbers changed.
fn with(state: &State, changed: &[(usize, u64)]) -> State {
    let mut state = *state;
    for &(at, value) in changed {
        state[at] = value;
    }
    state
}

/// Start and length of each message, and how the steps end; a state that is
/// none is refused with 14, and one that has ended stays ended.
pub fn answer(bytes: &[u8], field: u32) -> String {
    let mut out = told_in_both(bytes, |around| in_buffer(around, field));
    no_states(bytes, field).put(&mut out);
    ended_states(bytes, field).put(&mut out);
    out.done()
}

fn in_buffer(around: Around, field: u32) -> String {
    let mut buffer = Lent::bytes(&around.buffer);
    let (base, len) = (around.start as u64, around.len as u64);
    let mut state = first(base, len, u64::from(field));
    let mut out = Words::new();
    let mut faults = Faults::default();
    let code = loop {
        let (told, next) = step(&mut buffer, &state);
        if told.code == proved::OK {
            let [present, start, len] = part(&told.answer);
            faults.unless(present == 1, "a message that is not present");
            out.put(start.wrapping_sub(base)).put(len);
            let place = start.wrapping_add(len).wrapping_sub(base);
            let behind = with(&state, &[(PLACE, place)]);
            faults.unless(next == behind, "another next state");
        }
        faults.join(told.faults);
        // A place that does not grow would go on for ever.
        if told.code != proved::OK || next[PLACE] <= state[PLACE] {
            break told.code;
        }
        state = next;
    };
    out.end(Some(code).filter(|&code| code != proved::ENDED));
    // Once for all steps: the buffer is long where the steps are many.
    faults.unless(buffer.is_unchanged(), "the buffer changed");
    faults.put(&mut out);
    out.done()
}

/// One step, on a state slice that is longer than needed: what it told, and
/// the state that it left. Where the code is not 0, that is the ended one.
fn step(buffer: &mut Lent, state: &State) -> (Told, State) {
    let mut next = Vec::new();
    let mut faults = Faults::default();
    let mut told = told(proved::PART_SIZE, |out| {
        let mut lent = Lent::bytes(&[&bytes_of(state)[..], &BEHIND].concat());
        let code = proved::message(buffer.slice(), lent.slice(), out);
        let kept = lent.is_unchanged_but(0..proved::MESSAGES_SIZE);
        faults.unless(kept, "the bytes behind the state changed");
        let left = numbers(&lent.slice()[..proved::MESSAGES_SIZE]);
        if code == proved::OK {
            next.push(left);
        } else {
            faults.unless(left == ENDED, "the state has not ended");
        }
        code
    });
    next.dedup();
    faults.unless(next.len() < 2, "the next state is not the same each time");
    told.faults.join(faults);
    let next = next.first().and_then(|next| next[..].try_into().ok());
    (told, next.unwrap_or(ENDED))
}

/// A slice one byte too short for a state, which stays as it is; then a group
/// that passes the buffer, a place that passes the group, a field that is no
/// number of 32 bits and phases that there are not, behind which the state has
/// ended.
fn no_states(bytes: &[u8], field: u32) -> Faults {
    let (len, field) = (bytes.len() as u64, u64::from(field));
    let whole = first(0, len, field);
    let mut short = bytes_of(&whole);
    short.pop();
    let mut slices = vec![(short.clone(), short)];
    for state in [
        first(1, len, field),
        first(len + 1, 0, field),
        first(u64::MAX, len + 1, field),
        with(&whole, &[(PLACE, len + 1)]),
        with(&whole, &[(FIELD, field + (1 << 32))]),
        with(&whole, &[(PHASE, 2)]),
        with(&whole, &[(PHASE, 1 << 32)]),
    ] {
        slices.push((bytes_of(&state), bytes_of(&ENDED)));
    }
    let mut buffer = Lent::bytes(bytes);
    let mut faults = Faults::default();
    for (slice, left) in &slices {
        let mut out = Lent::room(proved::PART_SIZE);
        let code = quiet(&mut buffer, slice, left, &mut out, &mut faults);
        let refused = code == proved::OUTSIDE;
        faults.unless(refused, "what is no state is not refused with 14");
    }
    faults
}

/// An ended state, also one whose other numbers are not 0, over these bytes
/// and over others that have a message of the field, with slices for an answer
/// of any length: it says ended, and stays as it is.
fn ended_states(bytes: &[u8], field: u32) -> Faults {
    let (len, field) = (bytes.len() as u64, u64::from(field));
    let whole = with(&first(0, len, field), &[(PHASE, ENDED[PHASE])]);
    let mut faults = Faults::default();
    for mut buffer in [Lent::bytes(bytes), Lent::bytes(&message_of(field))] {
        for state in [ENDED, whole, with(&whole, &[(FIELD, u64::MAX)])] {
            for room in [proved::PART_SIZE, proved::PART_SIZE - 1, 0] {
                let slice = bytes_of(&state);
                let mut out = Lent::room(room);
                let code = quiet(&mut buffer, &slice, &slice, &mut out, &mut faults);
                faults.unless(code == proved::ENDED, "an ended state goes on");
            }
        }
    }
    faults
}

/// An empty message of a field.
fn message_of(field: u64) -> Vec<u8> {
    let mut rest = field << 3 | 2;
    let mut bytes = Vec::new();
    while rest >= 0x80 {
        bytes.push(rest as u8 | 0x80);
        rest >>= 7;
    }
    bytes.extend([rest as u8, 0]);
    bytes
}

/// The code of a step that gives no message: nothing changes but the state,
/// of which it is known what is left there.
fn quiet(buffer: &mut Lent, state: &[u8], left: &[u8], out: &mut Lent, faults: &mut Faults) -> u32 {
    let mut lent = Lent::bytes(state);
    let code = proved::message(buffer.slice(), lent.slice(), out.slice());
    let kept = lent.is_unchanged_but(0..state.len()) && buffer.is_unchanged();
    faults.unless(kept, "a step without a message changed what was lent");
    faults.unless(out.is_unchanged(), "an answer without a message");
    faults.unless(lent.slice() == left, "another state is left");
    code
}
