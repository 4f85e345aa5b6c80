//! All byte strings up to length 2, and samples of length 3 and 4 that prefer
//! the bytes at which a reader decides.

use crate::prng::Prng;

/// Tags of known fields, group tags, varint edges.
const TELLING: [u8; 28] = [
    0x00, 0x01, 0x02, 0x04, 0x07, 0x08, 0x0A, 0x0B, 0x0C, 0x0D, 0x0E, 0x10, 0x12, 0x13, 0x14, 0x18,
    0x1A, 0x22, 0x28, 0x2A, 0x40, 0x42, 0x4A, 0x52, 0x7F, 0x80, 0x88, 0xFF,
];

/// All byte strings of length 0, 1 and 2.
pub fn all_up_to_two(visit: &mut dyn FnMut(&[u8])) {
    visit(&[]);
    for first in 0..=255 {
        visit(&[first]);
    }
    for first in 0..=255 {
        for second in 0..=255 {
            visit(&[first, second]);
        }
    }
}

/// `n` strings of length 3 or 4.
pub fn sample_of_three_and_four(seed: u64, n: usize, visit: &mut dyn FnMut(&[u8])) {
    for i in 0..n as u64 {
        let mut rng = Prng::for_item(seed, i);
        let len = 3 + rng.below(2);
        let bytes: Vec<u8> = (0..len)
            .map(|_| {
                if rng.chance(80) {
                    rng.pick(&TELLING)
                } else {
                    rng.byte()
                }
            })
            .collect();
        visit(&bytes);
    }
}
