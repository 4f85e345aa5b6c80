//! The walks of made blocks up to the longest that is read: nanoseconds an
//! element stay level where no cost grows faster than the block.

use std::time::Duration;

use super::made::{MADE, Made};
use super::table::{Task, head, line, timed};
use super::{PUBLISHED, READER, Sides, What, sides};

/// Lengths of the blocks, in bytes: the last is the longest that is read.
const LENGTHS: [usize; 3] = [1 << 21, 1 << 23, 1 << 25];
/// Turns of each side, of one pass each where that is long.
const ROUNDS: usize = 2;
const TURN: Duration = Duration::from_millis(20);

pub fn print() -> Result<(), String> {
    let mut is_first = true;
    for made in &MADE {
        for len in LENGTHS {
            let mut sides = sides_for(&made.block(len))?;
            let names: Vec<&str> = sides.iter().map(|side| side.0).collect();
            if std::mem::take(&mut is_first) {
                println!("{}", head("made blocks", &names));
            }
            let times = timed(&task(made), &mut sides, ROUNDS, TURN)?;
            let name = format!("{}, {} MiB", made.name, len >> 20);
            println!("{}", line(&name, &times, &names));
        }
    }
    Ok(())
}

/// Without the simple reader, where the published Rust is there: it takes long,
/// and shows nothing here.
fn sides_for(block: &[u8]) -> Result<Sides, String> {
    let mut sides = sides(&[block.to_vec()])?;
    if sides.iter().any(|side| side.0 == PUBLISHED) {
        sides.retain(|side| side.0 != READER);
    }
    Ok(sides)
}

/// Empty messages have nothing in them to be walked over.
fn task(made: &Made) -> Task {
    match made.is_empty {
        true => Task::new("elements", false, What::Elements),
        false => Task::new("everything", false, What::Everything),
    }
}
