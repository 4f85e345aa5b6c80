//! The starts of walks over an element's tags, references and members, from
//! the element's bytes.

use super::faults::Faults;
use super::lent::Lent;
use super::shape::{NUMBER, part};
use super::slotted::{MEMBERS, RAW_TAGS, REFS, Slotted, TAGS};

/// A start, the walk that it is for, and the state that an element's numbers
/// should give, by those of its slot; none where they are no element's.
pub struct Start {
    call: fn(&mut [u8], &mut [u8]) -> u32,
    pub walk: &'static Slotted,
    due: fn(&[u8]) -> Option<Vec<u64>>,
}

pub const TAGS_START: Start = Start {
    call: proved::start_tags,
    walk: &TAGS,
    due: tags,
};
pub const RAW_TAGS_START: Start = Start {
    walk: &RAW_TAGS,
    ..TAGS_START
};
pub const REFS_START: Start = Start {
    call: proved::start_refs,
    walk: &REFS,
    due: refs,
};
pub const MEMBERS_START: Start = Start {
    call: proved::start_members,
    walk: &MEMBERS,
    due: members,
};

/// All of them.
pub const STARTS: [&Start; 4] = [&TAGS_START, &RAW_TAGS_START, &REFS_START, &MEMBERS_START];

/// Bytes of the slot that are not the state's.
const SPARE: usize = 5;

impl Start {
    /// The code, and the state that is then in the slot: with another code
    /// than 0 the ended one. A slot that is too short is left as it is.
    pub fn started(&self, element: &[u8], faults: &mut Faults) -> (u32, Vec<u8>) {
        let size = self.walk.state;
        let mut element = Lent::bytes(element);
        let mut slot = Lent::room(size + SPARE);
        for short in [size - 1, 0] {
            let code = (self.call)(element.slice(), &mut slot.slice()[..short]);
            let refused = code == proved::OUTSIDE && slot.is_unchanged();
            faults.unless(refused, "a start in a short slot is not refused with 14");
        }
        let code = (self.call)(element.slice(), slot.slice());
        let kept = element.is_unchanged() && slot.is_unchanged_but(0..size);
        faults.unless(kept, "a start changed what it must not");
        let state = slot.slice()[..size].to_vec();
        let ended = state.iter().all(|&byte| byte == 0);
        let right = code == proved::OK || code == proved::OUTSIDE && ended;
        faults.unless(right, "a refused start leaves no ended state");
        (code, state)
    }

    /// The numbers of the state that should be in the slot; none where the
    /// start is refused with 14.
    pub fn due(&self, element: &[u8]) -> Option<Vec<u64>> {
        let is_whole = element.len() >= proved::ELEMENT_SIZE;
        is_whole.then(|| (self.due)(element)).flatten()
    }
}

fn kind(element: &[u8]) -> u64 {
    proved::number(element, proved::ELEMENT_KIND)
}

fn tags(element: &[u8]) -> Option<Vec<u64>> {
    const DENSE: u64 = proved::ELEMENT_DENSE_NODE as u64;
    const NODE: u64 = proved::ELEMENT_NODE as u64;
    const WAY: u64 = proved::ELEMENT_WAY as u64;
    const RELATION: u64 = proved::ELEMENT_RELATION as u64;
    let view = &element[proved::ELEMENT_VIEW..];
    let (keys, vals) = match kind(element) {
        DENSE => {
            let start = proved::number(view, proved::DENSE_NODE_TAGS_START);
            let end = proved::number(view, proved::DENSE_NODE_TAGS_END);
            return Some(vec![2, start, end, 0, 0]);
        }
        NODE => (proved::NODE_KEYS, proved::NODE_VALS),
        WAY => (proved::WAY_KEYS, proved::WAY_VALS),
        RELATION => (proved::RELATION_KEYS, proved::RELATION_VALS),
        _ => return None,
    };
    let (keys, vals) = (column(view, keys)?, column(view, vals)?);
    Some([&[1], &keys[..], &vals].concat())
}

fn refs(element: &[u8]) -> Option<Vec<u64>> {
    let view = &element[proved::ELEMENT_VIEW..];
    match kind(element) as usize {
        proved::ELEMENT_WAY => Some([&[1], &column(view, proved::WAY_REFS)?[..], &[0]].concat()),
        proved::ELEMENT_DENSE_NODE | proved::ELEMENT_NODE | proved::ELEMENT_RELATION => {
            Some(vec![0; proved::REFS_SIZE / NUMBER])
        }
        _ => None,
    }
}

fn members(element: &[u8]) -> Option<Vec<u64>> {
    let view = &element[proved::ELEMENT_VIEW..];
    match kind(element) as usize {
        proved::ELEMENT_RELATION => {
            let roles = column(view, proved::RELATION_ROLES)?;
            let memids = column(view, proved::RELATION_MEMIDS)?;
            let types = column(view, proved::RELATION_TYPES)?;
            Some([&[1], &roles[..], &memids, &[0], &types].concat())
        }
        proved::ELEMENT_DENSE_NODE | proved::ELEMENT_NODE | proved::ELEMENT_WAY => {
            Some(vec![0; proved::MEMBERS_SIZE / NUMBER])
        }
        _ => None,
    }
}

/// The reader of a part's column: one at its end where the part is not
/// present, and one that is outside where the sum wraps.
fn column(view: &[u8], place: usize) -> Option<[u64; 2]> {
    match part(&view[place..]) {
        [0, _, _] => Some([0, 0]),
        [1, start, len] => Some(start.checked_add(len).map_or([1, 0], |end| [start, end])),
        _ => None,
    }
}
