//! What a function told, called with slices for its answer of three lengths.

use super::faults::Faults;
use super::lent::Lent;
use super::shape::Shape;
use crate::text::Words;

/// Bytes of a longer slice behind the answer: room for one number more.
const SPARE: usize = 11;

#[derive(Debug, PartialEq, Eq)]
pub struct Told {
    pub code: u32,
    /// The answer's bytes where the code is 0, else none.
    pub answer: Vec<u8>,
    pub faults: Faults,
}

/// Calls with a slice that is longer than the answer of `size` bytes, with one
/// that just holds it, and with one that is a byte too short.
pub fn told(size: usize, mut call: impl FnMut(&mut [u8]) -> u32) -> Told {
    let mut faults = Faults::default();
    let mut one = |room| one_call(room, size, &mut call, &mut faults);
    let longer = one(size + SPARE);
    let fitting = one(size);
    let short = one(size - 1);
    faults.unless(
        fitting == longer,
        "a slice that just fits is answered otherwise",
    );
    faults.unless(
        short.0 == proved::OUTSIDE,
        "a slice too short is not refused with 14",
    );
    let (code, answer) = longer;
    Told {
        code,
        answer,
        faults,
    }
}

/// Code and answer. Behind the answer no byte may change, and none at all
/// where the code is not 0.
fn one_call(
    room: usize,
    size: usize,
    call: &mut impl FnMut(&mut [u8]) -> u32,
    faults: &mut Faults,
) -> (u32, Vec<u8>) {
    let mut out = Lent::room(room);
    let code = call(out.slice());
    let written = if code == proved::OK {
        size.min(room)
    } else {
        0
    };
    let kept = out.is_unchanged_but(0..written);
    faults.unless(kept, "the answer's slice changed where it must not");
    (code, out.slice()[..written].to_vec())
}

impl Told {
    /// In the words of the other sides; a present part is told from `base` on.
    pub fn text(&self, shape: &Shape, base: usize) -> String {
        let mut out = Words::new();
        match self.code {
            proved::OK => shape.put(&self.answer, base as u64, out.put(0)),
            proved::NONE => {
                out.put('~');
            }
            refused => {
                out.put(refused);
            }
        }
        self.faults.put(&mut out);
        out.done()
    }
}
