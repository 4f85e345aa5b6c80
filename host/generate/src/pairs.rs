//! Pairs of blocks for the equality of listings and contents: the same content
//! in other bytes, and blocks that differ in one number.

use crate::model::{Block, Common};
use crate::prng::Prng;
use crate::random;
use crate::spell::spell_oddly;

/// Added to a 32-bit value it changes the bytes and not what is read.
const ABOVE_32_BITS: u64 = 1 << 32;

/// Takes a family's name and the two blocks of a pair.
pub type VisitPair<'v> = dyn FnMut(&str, &[u8], &[u8]) + 'v;

/// How the second block of a pair is made from the first.
type Alter = fn(&mut Prng, &mut Block);

/// Visits `n` pairs of each family. Those of `respelled`, `raised`,
/// `renumbered` and `other metadata` have the same plain content; those of
/// `changed` differ in one stored number, which may or may not show, and may
/// have made the block one that is refused.
pub fn for_each_pair(seed: u64, n: usize, visit: &mut VisitPair) {
    let families: [(&str, Alter); 5] = [
        ("respelled", |_, _| {}),
        ("raised", raise),
        ("renumbered", renumber),
        ("other metadata", other_metadata),
        ("changed", change),
    ];
    for i in 0..n as u64 {
        for (k, (family, alter)) in families.iter().enumerate() {
            let mut rng = Prng::for_item(seed ^ k as u64, i);
            let one = random::block(&mut rng);
            let mut other = one.clone();
            alter(&mut rng, &mut other);
            let oddness = rng.pick(&[0, 10, 30]);
            let first = spell_oddly(&mut rng, oddness, &one);
            let second = spell_oddly(&mut rng, oddness + 5, &other);
            visit(family, &first, &second);
        }
    }
}

/// Raises values of which only the low 32 bits are read.
fn raise(rng: &mut Prng, block: &mut Block) {
    for group in &mut block.groups {
        let nodes = group.nodes.iter_mut().map(|n| &mut n.common);
        let ways = group.ways.iter_mut().map(|w| &mut w.common);
        for common in nodes.chain(ways) {
            raise_all(rng, &mut common.keys);
            raise_all(rng, &mut common.vals);
        }
        for relation in &mut group.relations {
            raise_all(rng, &mut relation.common.keys);
            raise_all(rng, &mut relation.common.vals);
            raise_all(rng, &mut relation.roles);
            raise_all(rng, &mut relation.types);
        }
    }
}

fn raise_all(rng: &mut Prng, values: &mut [u64]) {
    for value in values {
        let above = rng.below(3) as u64;
        *value = value.wrapping_add(above * ABOVE_32_BITS);
    }
}

/// Orders the strings anew, all but string 0, whose number closes a dense
/// node's tags, and renumbers what points at them.
fn renumber(rng: &mut Prng, block: &mut Block) {
    if block.strings.is_empty() {
        return;
    }
    let mut order: Vec<usize> = (0..block.strings.len()).collect();
    rng.shuffle(&mut order[1..]);
    let mut new_number = vec![0; order.len()];
    for (new, &old) in order.iter().enumerate() {
        new_number[old] = new as u64;
    }
    block.strings = order
        .iter()
        .map(|&old| block.strings[old].clone())
        .collect();
    for group in &mut block.groups {
        group
            .nodes
            .iter_mut()
            .for_each(|n| renumber_tags(&mut n.common, &new_number));
        group
            .ways
            .iter_mut()
            .for_each(|w| renumber_tags(&mut w.common, &new_number));
        for relation in &mut group.relations {
            renumber_tags(&mut relation.common, &new_number);
            relation
                .roles
                .iter_mut()
                .for_each(|role| renumber32(role, &new_number));
        }
        if let Some(dense) = &mut group.dense {
            dense
                .keys_vals
                .iter_mut()
                .for_each(|n| renumber64(n, &new_number));
        }
    }
}

fn renumber_tags(common: &mut Common, new_number: &[u64]) {
    common
        .keys
        .iter_mut()
        .for_each(|key| renumber32(key, new_number));
    common
        .vals
        .iter_mut()
        .for_each(|val| renumber32(val, new_number));
}

/// The low 32 bits are the number; the others stay as they are.
fn renumber32(value: &mut u64, new_number: &[u64]) {
    let low = *value % ABOVE_32_BITS;
    if let Some(new) = new_number.get(low as usize) {
        *value = *value - low + new;
    }
}

/// keys_vals keeps all 64 bits.
fn renumber64(value: &mut u64, new_number: &[u64]) {
    if let Some(new) = usize::try_from(*value)
        .ok()
        .and_then(|old| new_number.get(old))
    {
        *value = *new;
    }
}

/// Other Info, DenseInfo, date granularity and way positions, which the plain
/// listing does not show.
fn other_metadata(rng: &mut Prng, block: &mut Block) {
    block.scalars[1] = None;
    for group in &mut block.groups {
        if let Some(dense) = &mut group.dense {
            dense.info = rng.chance(50).then(|| random::dense_info(rng, 2));
        }
        for node in &mut group.nodes {
            node.common.info = rng.chance(50).then(|| random::info(rng));
        }
        for way in &mut group.ways {
            way.common.info = rng.chance(50).then(|| random::info(rng));
            way.lats.clear();
            way.pins = None;
        }
        for relation in &mut group.relations {
            relation.common.info = rng.chance(50).then(|| random::info(rng));
        }
    }
}

/// Changes one stored number.
fn change(rng: &mut Prng, block: &mut Block) {
    let mut numbers = stored_numbers(block);
    if numbers.is_empty() {
        return;
    }
    let at = rng.below(numbers.len());
    let by = rng.pick(&[1, 2, ABOVE_32_BITS, u64::MAX]);
    *numbers[at] = numbers[at].wrapping_add(by);
}

/// Every number of the block but those of Info, DenseInfo and way positions.
fn stored_numbers(block: &mut Block) -> Vec<&mut u64> {
    let mut numbers: Vec<&mut u64> = block.scalars.iter_mut().flatten().collect();
    for group in &mut block.groups {
        if let Some(dense) = &mut group.dense {
            let columns = [&mut dense.ids, &mut dense.lats, &mut dense.lons];
            numbers.extend(columns.into_iter().flatten());
            numbers.extend(&mut dense.keys_vals);
        }
        for node in &mut group.nodes {
            numbers.extend(common_numbers(&mut node.common));
            numbers.extend(node.lat.iter_mut().chain(&mut node.lon));
        }
        for way in &mut group.ways {
            numbers.extend(common_numbers(&mut way.common));
            numbers.extend(&mut way.refs);
        }
        for relation in &mut group.relations {
            numbers.extend(common_numbers(&mut relation.common));
            let columns = [
                &mut relation.roles,
                &mut relation.memids,
                &mut relation.types,
            ];
            numbers.extend(columns.into_iter().flatten());
        }
    }
    numbers
}

fn common_numbers(common: &mut Common) -> impl Iterator<Item = &mut u64> {
    common
        .id
        .iter_mut()
        .chain(&mut common.keys)
        .chain(&mut common.vals)
}
