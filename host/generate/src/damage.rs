//! Damage to good bytes: every truncation, a few values at every byte, and
//! random damage where a full sweep would cost too much.

use crate::prng::Prng;

/// Every truncation of `bytes`, then seven other values at every place.
pub fn sweep(bytes: &[u8], visit: &mut dyn FnMut(&[u8])) {
    for len in 0..bytes.len() {
        visit(&bytes[..len]);
    }
    let mut changed = bytes.to_vec();
    for at in 0..bytes.len() {
        let old = bytes[at];
        let values = [0x00, 0x01, 0x7F, 0x80, 0xFF, old ^ 0x08, old ^ 0x01];
        for value in values.into_iter().filter(|&value| value != old) {
            changed[at] = value;
            visit(&changed);
        }
        changed[at] = old;
    }
}

/// One to three random injuries: a byte changed, lost, added, or a cut.
pub fn damage(rng: &mut Prng, bytes: &[u8]) -> Vec<u8> {
    let mut damaged = bytes.to_vec();
    for _ in 0..1 + rng.below(3) {
        if damaged.is_empty() {
            return rng.bytes(1);
        }
        let at = rng.below(damaged.len());
        match rng.below(8) {
            0 => damaged.truncate(at),
            1 => {
                damaged.remove(at);
            }
            2 => damaged.insert(at, rng.byte()),
            3 => damaged[at] = rng.byte(),
            4 => damaged[at] = rng.pick(&[0x00, 0x7F, 0x80, 0xFF]),
            _ => damaged[at] ^= 1 << rng.below(8),
        }
    }
    damaged
}
