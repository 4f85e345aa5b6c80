//! Payloads for the views, the group and the string table: good ones in odd
//! spellings, ones with a fault, damaged ones, and noise.

use crate::damage::damage;
use crate::model::{Message, MESSAGES};
use crate::prng::Prng;
use crate::random;
use crate::spell::Speller;

/// How many strings the payloads count on.
const STRINGS: usize = 5;

/// Visits `n` payloads for each kind of message but the block, with a family:
/// good, faulty, damaged or noise.
pub fn for_each_payload(seed: u64, n: usize, visit: &mut dyn FnMut(Message, &str, &[u8])) {
    for i in 0..n as u64 {
        for (k, &message) in MESSAGES.iter().enumerate().skip(1) {
            let mut rng = Prng::for_item(seed ^ k as u64, i);
            let (family, bytes) = payload(&mut rng, message);
            visit(message, family, &bytes);
        }
    }
}

fn payload(rng: &mut Prng, message: Message) -> (&'static str, Vec<u8>) {
    let oddness = rng.pick(&[0, 10, 30]);
    match rng.below(10) {
        0..=3 => ("good", spelled(rng, message, oddness, false)),
        4..=6 => ("faulty", spelled(rng, message, oddness, true)),
        7 | 8 => {
            let good = spelled(rng, message, oddness, false);
            ("damaged", damage(rng, &good))
        }
        _ => {
            let len = rng.below(12);
            ("noise", rng.bytes(len))
        }
    }
}

/// A random message of this kind. The fault goes into the message itself, the
/// last one that is finished.
fn spelled(rng: &mut Prng, message: Message, oddness: usize, fault: bool) -> Vec<u8> {
    let model = Prng::new(rng.next_u64());
    if !fault {
        return spell(&mut Speller::new(rng, oddness), message, model);
    }
    let mut counter = Speller::new(rng, 0);
    spell(&mut counter, message, model.clone());
    let last = counter.messages() - 1;
    spell(&mut Speller::with_fault(rng, oddness, last), message, model)
}

fn spell(speller: &mut Speller, message: Message, mut model: Prng) -> Vec<u8> {
    let model = &mut model;
    match message {
        Message::Block => speller.block(&random::block(model)),
        Message::StringTable => speller.string_table(&random::block(model).strings),
        Message::Group => speller.group(&random::group(model, STRINGS)),
        Message::Node => speller.node(&random::node(model, STRINGS)),
        Message::Way => speller.way(&random::way(model, STRINGS)),
        Message::Relation => speller.relation(&random::relation(model, STRINGS)),
        Message::DenseNodes => speller.dense(&random::dense(model, STRINGS)),
        Message::DenseInfo => speller.dense_info(&random::dense_info(model, 3)),
        Message::Info => speller.info(&random::info(model)),
    }
}
