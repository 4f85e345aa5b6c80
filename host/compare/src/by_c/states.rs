//! States in slots as the simple reader has them. Where the numbers are those
//! of no state, there is nothing ahead but 14. Which number of a slot is which
//! is the library's own affair, so it stands here alone.

use reader::dense::{DenseRows, InfoRows};
use reader::group::{NODE, RELATION, WAY};
use reader::walk::{InGroup, Place};
use reader::{Column, DenseTags, Members, Messages, Mode, Part, Record, Refs, Tags, Walk};

use super::ahead::Ahead;
use super::items;
use super::shape::{NUMBER, numbers};

const NO_STATE: u32 = proved::OUTSIDE;

/// The phases of a walk. Between groups it has the number of the next one,
/// within one its number, start and length.
const BETWEEN: u64 = 1;
const DENSE: u64 = 2;
const NODES: u64 = 3;
const WAYS: u64 = 4;
const RELATIONS: u64 = 5;

/// Where numbers of a walk's slot stand.
const FULL: usize = 1;
const GROUP: usize = 2;
const RANGE: usize = 3;
/// Of a dense message its range, its columns with their sums, keys_vals and
/// the columns of its info; of other messages the place in the group.
const MESSAGE: usize = 5;
const PLACE: usize = 5;
const ROWS: usize = 7;
const KEYS_VALS: usize = 16;
const INFOS: usize = 18;

/// The bytes of a walk's slot that its state takes.
pub fn held_by_walk(slot: &[u8]) -> usize {
    let slot = numbers(&slot[..proved::WALK_SIZE]);
    let held = match (slot[0], slot[FULL]) {
        (BETWEEN, _) => GROUP + 1,
        (DENSE, 0) => INFOS,
        (NODES..=RELATIONS, _) => PLACE + 1,
        _ => slot.len(),
    };
    held * NUMBER
}

pub fn walk(slot: &[u64], buffer: &[u8], record: &Record) -> Ahead {
    let Some((state, mode)) = walk_in(slot) else {
        return Ahead::told(NO_STATE);
    };
    let step = |state| reader::step(buffer, record, state, mode);
    Ahead::by_steps(state, step, |element| items::element(element, mode))
}

fn walk_in(slot: &[u64]) -> Option<(Walk, Mode)> {
    if slot[0] == proved::PHASE_ENDED as u64 {
        return Some((Walk::Ended, Mode::Plain));
    }
    let mode = match slot[FULL] {
        0 => Mode::Plain,
        1 => Mode::Full,
        _ => return None,
    };
    let (start, len) = (slot[RANGE] as usize, slot[RANGE + 1] as usize);
    // A place that passes the group, or a sum that wraps, is behind the end.
    let messages = |field| Messages::At {
        field,
        at: start.saturating_add(slot[PLACE] as usize),
        end: start.saturating_add(len),
    };
    let place = match slot[0] {
        BETWEEN => return Some((Walk::Before(slot[GROUP]), mode)),
        DENSE => Place::Dense {
            message: Part::at(slot[MESSAGE] as usize, slot[MESSAGE + 1] as usize),
            rows: rows_in(slot, mode)?,
        },
        NODES => Place::Nodes(messages(NODE)),
        WAYS => Place::Ways(messages(WAY)),
        RELATIONS => Place::Relations(messages(RELATION)),
        _ => return None,
    };
    let group = slot[GROUP];
    let inside = InGroup {
        group,
        start,
        len,
        place,
    };
    Some((Walk::Inside(inside), mode))
}

fn rows_in(slot: &[u64], mode: Mode) -> Option<DenseRows> {
    let sum = |at: usize| slot[at + 2] as i64;
    Some(DenseRows {
        ids: column(slot, ROWS),
        lats: column(slot, ROWS + 3),
        lons: column(slot, ROWS + 6),
        keys_vals: column(slot, KEYS_VALS),
        id: sum(ROWS),
        lat: sum(ROWS + 3),
        lon: sum(ROWS + 6),
        info: match mode {
            Mode::Plain => InfoRows::default(),
            Mode::Full => infos_in(&slot[INFOS..])?,
        },
    })
}

fn infos_in(slot: &[u64]) -> Option<InfoRows> {
    let sum32 = |at: usize| i32::try_from(slot[at + 2] as i64).ok();
    Some(InfoRows {
        versions: column(slot, 0),
        timestamps: column(slot, 2),
        changesets: column(slot, 5),
        uids: column(slot, 8),
        user_sids: column(slot, 11),
        visibles: column(slot, 14),
        timestamp: slot[4] as i64,
        changeset: slot[7] as i64,
        uid: sum32(8)?,
        user_sid: sum32(11)?,
    })
}

fn column(slot: &[u64], at: usize) -> Column {
    Column {
        at: slot[at] as usize,
        end: slot[at + 1] as usize,
    }
}

/// The phases of a walk over tags: keys and vals, or a dense node's pairs.
const COLUMNS: u64 = 1;
const PAIRS: u64 = 2;
/// The one phase of a walk over references or members.
const AT: u64 = 1;

pub fn tags(slot: &[u64], buffer: &[u8], record: &Record) -> Ahead {
    match slot[0] {
        0 => Ahead::told(proved::ENDED),
        COLUMNS => {
            let step = |state| reader::tags_step(buffer, record, state);
            Ahead::by_steps(columns_in(slot), step, items::tag)
        }
        PAIRS => {
            let step = |state| reader::dense_tags_step(buffer, record, state);
            Ahead::by_steps(DenseTags::of(column(slot, 1)), step, items::tag)
        }
        _ => Ahead::told(NO_STATE),
    }
}

pub fn raw_tags(slot: &[u64], buffer: &[u8], _record: &Record) -> Ahead {
    match slot[0] {
        0 => Ahead::told(proved::ENDED),
        COLUMNS => {
            let step = |state| reader::raw_tags_step(buffer, state);
            Ahead::by_steps(columns_in(slot), step, items::raw_tag)
        }
        PAIRS => {
            let step = |state| reader::raw_dense_tags_step(buffer, state);
            Ahead::by_steps(DenseTags::of(column(slot, 1)), step, items::raw_tag)
        }
        _ => Ahead::told(NO_STATE),
    }
}

fn columns_in(slot: &[u64]) -> Tags {
    Tags::At {
        keys: column(slot, 1),
        vals: column(slot, 3),
    }
}

pub fn refs(slot: &[u64], buffer: &[u8], _record: &Record) -> Ahead {
    let state = match slot[0] {
        0 => Refs::Ended,
        AT => Refs::At {
            refs: column(slot, 1),
            sum: slot[3] as i64,
        },
        _ => return Ahead::told(NO_STATE),
    };
    let step = |state| reader::refs_step(buffer, state);
    Ahead::by_steps(state, step, items::reference)
}

pub fn members(slot: &[u64], buffer: &[u8], record: &Record) -> Ahead {
    let state = match slot[0] {
        0 => Members::Ended,
        AT => Members::At {
            roles: column(slot, 1),
            memids: column(slot, 3),
            types: column(slot, 6),
            sum: slot[5] as i64,
        },
        _ => return Ahead::told(NO_STATE),
    };
    let step = |state| reader::members_step(buffer, record, state);
    Ahead::by_steps(state, step, items::member)
}
