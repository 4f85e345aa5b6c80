//! The questions of the fixed list: about inputs made by hand, about document
//! 01's field examples, about which of two refusals the check meets first,
//! about what lies outside, and about a sample of the generator's blocks and
//! payloads, a few for each question and number, so that every refusal that a
//! small input can meet stands in the list.

use std::collections::BTreeMap;

use generate::{examples, for_each_payload, structured};

use crate::by_hand;
use crate::by_reader;
use crate::first_met;
use crate::judge::number_of;
use crate::known::KNOWN;
use crate::outside;
use crate::question::{Ask, PAYLOAD, lookups};
use crate::text::parse_bytes;

/// A question and the bytes it is asked about.
pub type Question = (Ask, Vec<u8>);

/// How many inputs were kept of a question and a number.
type Kept = BTreeMap<(&'static str, u8), usize>;

/// How many generated inputs a question keeps for each number.
const KEPT: usize = 3;
/// A generated input is kept where it is at most this long.
const LONGEST: usize = 90;
/// Generated inputs that are looked at.
const TRIED: u64 = 6000;

/// All questions of the list, each once.
pub fn questions() -> Vec<Question> {
    let mut list = Vec::new();
    by_hand::leaves()
        .iter()
        .for_each(|leaf| about_leaf(leaf, &mut list));
    for payload in by_hand::payloads() {
        list.extend(PAYLOAD.map(|ask| (ask, payload.clone())));
    }
    for block in examples().into_iter().chain(by_hand::blocks()) {
        about_block(&block, &mut list);
    }
    let known = KNOWN.iter().filter_map(|known| parse_bytes(known.smallest));
    for block in by_hand::blocks_with_a_refused_message()
        .into_iter()
        .chain(known)
        .chain(first_met::blocks())
    {
        about_scanned(&block, &mut list);
    }
    outside::questions(&mut list);
    generated(&mut list);
    once(list)
}

/// As a varint and a field at its start, its end and behind it, and as a
/// column.
fn about_leaf(leaf: &[u8], list: &mut Vec<Question>) {
    let len = leaf.len() as u64;
    for at in [0, len, len + 1] {
        list.push((Ask::Varint { at }, leaf.to_vec()));
        list.push((Ask::Field { at }, leaf.to_vec()));
    }
    list.push((Ask::Column, leaf.to_vec()));
}

/// The scan in three buffers; where it takes the block, all that follows it.
fn about_block(block: &[u8], list: &mut Vec<Question>) {
    let len = block.len() as u64;
    let Ok((buffer, record)) = by_reader::open(block) else {
        list.push((Ask::Scan { len, room: len }, block.to_vec()));
        return;
    };
    let full = buffer.len() as u64;
    for room in [full + 2, full, full.saturating_sub(1)] {
        list.push((Ask::Scan { len, room }, block.to_vec()));
    }
    about_scanned(block, list);
    list.extend(
        lookups(&record)
            .into_iter()
            .map(|ask| (ask, buffer.clone())),
    );
}

/// The check and both walks, where the scan takes the block.
fn about_scanned(block: &[u8], list: &mut Vec<Question>) {
    if by_reader::open(block).is_ok() {
        list.extend([Ask::Check, Ask::Plain, Ask::Full].map(|ask| (ask, block.to_vec())));
    }
}

/// Short generated blocks and payloads, the first few of each question and
/// number.
fn generated(list: &mut Vec<Question>) {
    let mut kept = Kept::new();
    for index in 0..TRIED {
        let block = structured(1, index).1;
        if block.len() <= LONGEST && keep(&mut kept, "block", by_reader::verdict(&block)) {
            about_block(&block, list);
        }
    }
    for_each_payload(1, TRIED as usize / 8, &mut |_, _, payload| {
        for ask in PAYLOAD {
            let number = number_of(ask, &by_reader::answer(ask, payload));
            if payload.len() <= LONGEST / 2 && keep(&mut kept, ask.name(), number) {
                list.push((ask, payload.to_vec()));
            }
        }
    });
}

fn keep(kept: &mut Kept, name: &'static str, number: u8) -> bool {
    let times = kept.entry((name, number)).or_default();
    *times += 1;
    *times <= KEPT
}

/// The list without repetitions, in its order.
fn once(list: Vec<Question>) -> Vec<Question> {
    let mut seen = std::collections::HashSet::new();
    let key = |(ask, bytes): &Question| (ask.name(), ask.numbers(), bytes.clone());
    list.into_iter()
        .filter(|question| seen.insert(key(question)))
        .collect()
}
