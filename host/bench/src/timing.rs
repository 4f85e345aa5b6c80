//! How long a pass over all blocks takes: the tasks and the sides take turns,
//! each turn is as many passes as fill half a second, and the best turn counts, so
//! that other work on the computer weighs little.

use std::time::{Duration, Instant};

use crate::table::Column;

/// Turns of each task and side.
const ROUNDS: usize = 5;
/// How long a turn takes at least.
const TURN: Duration = Duration::from_millis(500);

#[derive(Clone, Copy, PartialEq, Eq)]
pub enum Task {
    Scan,
    /// Over buffers and records that are scanned already.
    Check,
    Both,
}

pub const TASKS: [(&str, Task); 3] = [
    ("scan", Task::Scan),
    ("check", Task::Check),
    ("scan and check", Task::Both),
];

/// A side that is ready for passes.
pub trait Pass {
    /// Does the task on every block: the largest number of a refusal, or 0.
    fn pass(&mut self, task: Task) -> u32;
}

/// The best times of each side; an error where a block is refused.
pub fn best(sides: &mut [(&str, &mut dyn Pass)]) -> Result<Vec<Column>, String> {
    let mut columns: Vec<Column> = sides.iter().map(|(name, _)| Column::new(name)).collect();
    for _ in 0..ROUNDS {
        for (row, (_, task)) in TASKS.into_iter().enumerate() {
            for ((_, side), column) in sides.iter_mut().zip(&mut columns) {
                column.take(row, turn(*side, task)?);
            }
        }
    }
    Ok(columns)
}

/// Seconds of a pass.
fn turn(side: &mut dyn Pass, task: Task) -> Result<f64, String> {
    let started = Instant::now();
    let mut passes = 0;
    loop {
        match side.pass(task) {
            0 => passes += 1,
            number => return Err(format!("a block is refused with {number}")),
        }
        let elapsed = started.elapsed();
        if elapsed >= TURN {
            return Ok(elapsed.as_secs_f64() / f64::from(passes));
        }
    }
}
