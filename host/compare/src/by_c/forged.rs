//! States and elements that no call gave: of each state of a walk and of the
//! walks over its elements, each number is set to the edges of what it may be.
//! What is then ahead through C is what the simple reader has ahead, and
//! nothing else changes.

use generate::Prng;
use reader::Mode;

use super::ahead::{self, Slices};
use super::block::scanned;
use super::faults::Faults;
use super::record::GROUPS;
use super::shape::{NUMBER, bytes as bytes_of, numbers};
use super::slotted::{Reads, Slotted, WALK};
use super::starts::{STARTS, Start};
use super::walk::{element_bytes, start};
use crate::text::Words;
use crate::tried::Tried;

/// States of one walk that are forged: enough for each kind of place.
const STATES: usize = 12;
/// How many numbers at most a random try changes, and how many tries there are.
const CHANGES: usize = 3;
const TRIES: usize = 40;

/// A state in the slot of a walk, or an element that something is started at.
enum Forgery {
    State(&'static Slotted, Vec<u64>),
    Element(&'static Start, Vec<u64>),
}

/// Each number of each state with every edge.
pub fn all(bytes: &[u8]) -> Vec<Tried> {
    let Ok((buffer, record)) = scanned(bytes) else {
        return Vec::new();
    };
    let mut reads = Reads::new(&buffer, &record);
    let mut tried = Vec::new();
    for forgery in forgeries(&mut reads) {
        let right = forgery.numbers().to_vec();
        for at in 0..right.len() {
            for value in edges(&right, right[at], &mut reads) {
                let mut forged = right.clone();
                forged[at] = value;
                tried.push(forgery.tried(&forged, &mut reads));
            }
        }
    }
    tried
}

/// Some states with some numbers changed.
pub fn some(bytes: &[u8], seed: u64) -> Vec<Tried> {
    let Ok((buffer, record)) = scanned(bytes) else {
        return Vec::new();
    };
    let mut reads = Reads::new(&buffer, &record);
    let mut rng = Prng::new(seed);
    let forgeries = forgeries(&mut reads);
    let mut one = |_| {
        let forgery = &forgeries[rng.below(forgeries.len())];
        let mut forged = forgery.numbers().to_vec();
        for _ in 0..1 + rng.below(CHANGES) {
            let at = rng.below(forged.len());
            let edges = edges(&forged, forged[at], &mut reads);
            forged[at] = match rng.chance(50) {
                true => edges[rng.below(edges.len())],
                false => rng.below(buffer.len() + 2) as u64,
            };
        }
        forgery.tried(&forged, &mut reads)
    };
    (0..TRIES).map(&mut one).collect()
}

/// The states of both walks before each of their steps, and of the first
/// element of each kind the states of the walks over what it has, before the
/// first item and before the second.
fn forgeries(reads: &mut Reads) -> Vec<Forgery> {
    let mut found = Vec::new();
    for mode in [Mode::Plain, Mode::Full] {
        let start = start(mode, &mut Faults::default());
        let mut seen = Vec::new();
        for (state, element) in before_items(&WALK, start, reads) {
            found.push(Forgery::State(&WALK, numbers(&state)));
            let Some(element) = element else { continue };
            let kind = proved::number(&element, proved::ELEMENT_KIND);
            if !seen.contains(&kind) {
                seen.push(kind);
                of_element(&element, reads, &mut found);
            }
        }
    }
    found
}

fn of_element(element: &[u8], reads: &mut Reads, found: &mut Vec<Forgery>) {
    for start in STARTS {
        found.push(Forgery::Element(start, numbers(element)));
        let state = start.started(element, &mut Faults::default()).1;
        let states = before_items(start.walk, state, reads).into_iter().take(2);
        found.extend(states.map(|(state, _)| Forgery::State(start.walk, numbers(&state))));
    }
}

/// The first states of a walk, each with the bytes of the item behind it,
/// where there is one.
fn before_items(
    walk: &'static Slotted,
    start: Vec<u8>,
    reads: &mut Reads,
) -> Vec<(Vec<u8>, Option<Vec<u8>>)> {
    let mut found = vec![(start, None)];
    while let Some((state, item)) = found.last_mut() {
        let mut slices = Slices::new(walk, state);
        if slices.one(reads, 0, walk.item) != proved::OK {
            break;
        }
        let given = slices.item();
        let written = (walk.written)(&given);
        *item = Some(match walk.item {
            proved::ELEMENT_SIZE => element_bytes(&numbers(&given[..written])),
            _ => given,
        });
        if found.len() == STATES {
            break;
        }
        found.push((slices.state(), None));
    }
    found
}

/// The ends of what a number may be: those of all numbers, its neighbours, the
/// buffer's length, the group count, and the others that stand beside it, among
/// which are the lengths and ends of the ranges.
fn edges(numbers: &[u64], value: u64, reads: &mut Reads) -> Vec<u64> {
    let (len, groups) = (reads.buffer().len() as u64, reads.numbers()[GROUPS]);
    let mut edges = vec![0, 1, 2, 1 << 31, 1 << 32, 1 << 63, u64::MAX];
    edges.extend([(1 << 31) - 1, (1 << 63) - 1, value.wrapping_add(1 << 32)]);
    for near in [value, len, groups] {
        edges.extend([near.wrapping_sub(1), near, near.wrapping_add(1)]);
    }
    for &other in numbers.iter().filter(|&&other| other <= len) {
        edges.extend([other, other + 1]);
    }
    edges.sort_unstable();
    edges.dedup();
    edges.retain(|&edge| edge != value);
    edges
}

impl Forgery {
    fn numbers(&self) -> &[u64] {
        match self {
            Forgery::State(_, numbers) | Forgery::Element(_, numbers) => numbers,
        }
    }

    /// What these numbers in their place show.
    fn tried(&self, forged: &[u64], reads: &mut Reads) -> Tried {
        match self {
            Forgery::State(walk, _) => state(walk, forged, reads),
            Forgery::Element(start, _) => element(start, forged, reads),
        }
    }
}

fn state(walk: &'static Slotted, forged: &[u64], reads: &mut Reads) -> Tried {
    let mut faults = Faults::default();
    let ahead = ahead::through_c(walk, reads, &bytes_of(forged), &mut faults);
    let record = reads.record();
    let expected = (walk.by_reader)(forged, reads.buffer(), &record);
    faults.unless(reads.is_unchanged(), "what a call reads changed");
    faults.unless(ahead == expected, "the simple reader gives something else");
    let how = format!("state {forged:?}: {}", ahead.beside(&expected));
    tried(ahead.code, how, &faults)
}

/// The start at an element, and what is then ahead.
fn element(start: &Start, forged: &[u64], reads: &mut Reads) -> Tried {
    let mut faults = Faults::default();
    let bytes = bytes_of(forged);
    let (code, slot) = start.started(&bytes, &mut faults);
    let short = start
        .started(&bytes[..proved::ELEMENT_SIZE - 1], &mut faults)
        .0;
    faults.unless(
        short == proved::OUTSIDE,
        "a short element is not refused with 14",
    );
    let due = start.due(&bytes);
    let right = code == due.as_ref().map_or(proved::OUTSIDE, |_| proved::OK);
    faults.unless(right, "another code of the start");
    let ahead = ahead::through_c(start.walk, reads, &slot, &mut faults);
    let record = reads.record();
    let ended = vec![0; start.walk.state / NUMBER];
    let due = due.unwrap_or(ended);
    let expected = (start.walk.by_reader)(&due, reads.buffer(), &record);
    faults.unless(ahead == expected, "the simple reader gives something else");
    let how = format!("element {forged:?}: {code}, {}", ahead.beside(&expected));
    let told = if code == proved::OK { ahead.code } else { code };
    tried(told, how, &faults)
}

fn tried(code: u32, how: String, faults: &Faults) -> Tried {
    let mut out = Words::new();
    faults.put(&mut out);
    let faults = out.done();
    Tried {
        number: u8::try_from(code)
            .ok()
            .filter(|&code| code < 100)
            .unwrap_or(0),
        difference: (!faults.is_empty()).then(|| format!("{faults}: {how}")),
    }
}
