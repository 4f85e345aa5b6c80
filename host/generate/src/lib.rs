//! Deterministic inputs for a reader of map blocks: good blocks in every odd
//! but legal spelling, blocks with a fault, damaged ones, all small byte
//! strings, limits, payloads for single messages, pairs of equal content, and
//! the blocks of real map files. The same seed gives the same inputs.

pub mod damage;
pub mod encode;
pub mod examples;
pub mod fault;
pub mod fixtures;
pub mod inflate;
pub mod limits;
pub mod model;
pub mod pairs;
pub mod payloads;
pub mod pbf;
pub mod prng;
pub mod random;
pub mod small;
pub mod spell;
pub mod unknown;

pub use damage::{damage, sweep};
pub use examples::examples;
pub use fixtures::fixtures;
pub use limits::{for_each_limit, Limit};
pub use model::Message;
pub use pairs::for_each_pair;
pub use payloads::for_each_payload;
pub use pbf::primitive_blocks;
pub use prng::Prng;

/// Visits blocks of every family, each with its family's name. `n` is the
/// number of structured blocks; the families of fixed size do not depend on it.
pub fn for_each_block(seed: u64, n: usize, visit: &mut dyn FnMut(&str, &[u8])) {
    for example in examples() {
        visit("example", &example);
    }
    small::all_up_to_two(&mut |block| visit("small", block));
    small::sample_of_three_and_four(seed, n, &mut |block| visit("sampled", block));
    for (_, fixture) in fixtures() {
        visit("fixture", &fixture);
        sweep(&fixture, &mut |block| visit("swept fixture", block));
    }
    for_each_structured(seed, n, visit);
    for_each_swept(seed, n / 200 + 1, visit);
}

/// Visits `n` structured random blocks: of ten, five are legal ("structured"),
/// two have a fault ("faulty"), one has columns of different counts
/// ("unbalanced"), two are damaged afterwards ("damaged"). One in a hundred is
/// legal and large ("large").
pub fn for_each_structured(seed: u64, n: usize, visit: &mut dyn FnMut(&str, &[u8])) {
    for i in 0..n as u64 {
        let (family, block) = structured(seed, i);
        visit(family, &block);
    }
}

/// The structured block of this number.
pub fn structured(seed: u64, index: u64) -> (&'static str, Vec<u8>) {
    let mut rng = Prng::for_item(seed, index);
    let rng = &mut rng;
    let oddness = rng.pick(&[0, 5, 15, 40]);
    if index % 100 == 99 {
        let block = random::large_block(rng);
        return ("large", spell::spell_oddly(rng, oddness, &block));
    }
    let mut block = random::block(rng);
    match index % 10 {
        0..=4 => ("structured", spell::spell_oddly(rng, oddness, &block)),
        5 | 6 => ("faulty", spell::spell_with_fault(rng, oddness, &block)),
        7 => {
            fault::unbalance(rng, &mut block);
            ("unbalanced", spell::spell_oddly(rng, oddness, &block))
        }
        _ => {
            let good = spell::spell_oddly(rng, oddness, &block);
            ("damaged", damage(rng, &good))
        }
    }
}

/// Visits every truncation and byte change of `n` short structured blocks.
pub fn for_each_swept(seed: u64, n: usize, visit: &mut dyn FnMut(&str, &[u8])) {
    let legal = (0..).filter(|i| i % 10 < 5).map(|i| structured(!seed, i).1);
    for block in legal
        .filter(|block| (20..300).contains(&block.len()))
        .take(n)
    {
        sweep(&block, &mut |changed| visit("swept", changed));
    }
}
