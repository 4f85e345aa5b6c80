//! Where the inputs come from: a fixed part (examples, short strings, fixtures
//! with their damage, limits) and random rounds until the time is over.

use std::time::Instant;

use generate::small::{all_up_to_two, sample_of_three_and_four};
use generate::{
    Prng, damage, examples, fixtures, for_each_limit, for_each_pair, for_each_payload,
    for_each_swept, structured, sweep,
};

use crate::args::Args;
use crate::by_reader;
use crate::judge::Judge;
use crate::known::KNOWN;
use crate::question::Ask;
use crate::text::parse_bytes;

/// Strings of length 3 and 4 in the fixed part.
const SHORT: usize = 40_000;
/// Structured blocks in a round.
const BLOCKS: u64 = 40;
/// A block of fewer bytes is changed behind its scan, byte by byte.
const SHORT_BLOCK: usize = 200;
/// Blocks between two whose states are forged.
const FORGED_EVERY: u64 = 8;
/// Odd and large, so that the rounds of neighbouring seeds do not meet.
const SPREAD: u64 = 0x9e37_79b9_7f4a_7c15;
/// Rounds between two full damages of a short block, and between two damages
/// of a map's block: each takes as long as many rounds.
const SWEEP_EVERY: u64 = 16;
const MAP_EVERY: u64 = 48;

/// The part that is the same in every run.
pub fn fixed(judge: &mut Judge) {
    for known in &KNOWN {
        both(judge, &parse_bytes(known.smallest).unwrap_or_default());
    }
    examples().iter().for_each(|block| judge.block(block));
    all_up_to_two(&mut |bytes| both(judge, bytes));
    sample_of_three_and_four(1, SHORT, &mut |bytes| both(judge, bytes));
    for (_, block) in fixtures() {
        judge.block(&block);
        fixtures()
            .iter()
            .for_each(|(_, other)| judge.pair(&block, other));
        sweep(&block, &mut |bytes| {
            judge.block(bytes);
            judge.pair(&block, bytes);
        });
        judge.forged(&block, None);
        judge.changed(&block);
    }
    for_each_limit(&mut |limit| {
        let room = limit.buffer.len() as u64;
        judge.ask(
            Ask::Scan {
                len: limit.block_len,
                room,
            },
            &limit.buffer,
        );
    });
}

/// Random rounds until the time is over; how many there were.
pub fn random(args: &Args, maps: &[Vec<u8>], judge: &mut Judge) -> u64 {
    let started = Instant::now();
    let mut round = 0;
    while started.elapsed() < args.time {
        let seed = args.seed.wrapping_mul(SPREAD).wrapping_add(round);
        one_round(seed, judge);
        if round % SWEEP_EVERY == 0 {
            for_each_swept(seed, 1, &mut |_, bytes| judge.block(bytes));
            change_behind_the_scan(seed, judge);
        }
        if round % MAP_EVERY == 0 && !maps.is_empty() {
            damage_a_map(seed, maps, judge);
        }
        round += 1;
    }
    round
}

fn one_round(seed: u64, judge: &mut Judge) {
    let mut before = structured(seed, BLOCKS).1;
    for index in 0..BLOCKS {
        let block = structured(seed, index).1;
        judge.block(&block);
        judge.pair(&before, &block);
        if index % FORGED_EVERY == 0 {
            judge.forged(&block, Some(seed));
        }
        before = block;
    }
    for_each_payload(seed, 1, &mut |_, _, bytes| judge.payload(bytes));
    for_each_pair(seed, 1, &mut |family, one, other| {
        judge.block(one);
        judge.block(other);
        judge.pair(one, other);
        if family != "changed" && !equal(one, other) {
            judge
                .tally
                .broken(family, one, "\n  the other block has another content");
        }
    });
}

/// Whether both blocks are accepted and have one listing and one content.
fn equal(one: &[u8], other: &[u8]) -> bool {
    by_reader::verdict(one) == 0
        && by_reader::verdict(other) == 0
        && reader::listing(one) == reader::listing(other)
        && reader::content(one) == reader::content(other)
}

/// The first short legal block of a round, changed behind its scan.
fn change_behind_the_scan(seed: u64, judge: &mut Judge) {
    let mut blocks = (0..BLOCKS).map(|index| structured(seed, index));
    let short =
        |(family, block): &(&str, Vec<u8>)| *family == "structured" && block.len() < SHORT_BLOCK;
    if let Some((_, block)) = blocks.find(short) {
        judge.changed(&block);
    }
}

fn damage_a_map(seed: u64, maps: &[Vec<u8>], judge: &mut Judge) {
    let mut rng = Prng::new(seed);
    let block = &maps[rng.below(maps.len())];
    judge.block(&damage(&mut rng, block));
}

fn both(judge: &mut Judge, bytes: &[u8]) {
    judge.block(bytes);
    judge.payload(bytes);
}
