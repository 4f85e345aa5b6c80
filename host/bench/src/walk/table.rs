//! The times of walks as a table: a row for each task, a column for each side,
//! in nanoseconds an element, and how many times as long the library takes.

use std::hint::black_box;
use std::time::{Duration, Instant};

use super::sum::Sum;
use super::{PUBLISHED, READER, Sides, Walker, What, sides};

/// Turns of each task and side, and how long each takes at least. Of each block
/// the best time counts: one block takes less than a millisecond or so, and then
/// other work on the computer weighs little.
const ROUNDS: usize = 5;
const TURN: Duration = Duration::from_millis(60);

/// What is timed, and whether the check comes before it.
pub struct Task {
    name: &'static str,
    check: bool,
    what: What,
}

const TASKS: [Task; 4] = [
    Task::new("elements", false, What::Elements),
    Task::new("everything", false, What::Everything),
    Task::new("check, elements", true, What::Elements),
    Task::new("check, everything", true, What::Everything),
];

impl Task {
    pub const fn new(name: &'static str, check: bool, what: What) -> Task {
        Task { name, check, what }
    }

    fn done_by(&self, side: &mut dyn Walker, block: usize) -> Result<Sum, String> {
        if self.check {
            side.check(block)?;
        }
        side.walk(block, self.what)
    }
}

/// The best seconds of each side, none where it has no such task.
pub struct Times {
    pub elements: u64,
    pub seconds: Vec<Option<f64>>,
}

impl Times {
    /// Nanoseconds an element.
    pub fn nanoseconds(&self, side: usize) -> Option<f64> {
        let seconds = self.seconds[side]?;
        Some(seconds * 1e9 / self.elements.max(1) as f64)
    }
}

/// Prints a table for the blocks.
pub fn print(blocks: &[Vec<u8>]) -> Result<(), String> {
    let mut sides = sides(blocks)?;
    let names: Vec<&str> = sides.iter().map(|side| side.0).collect();
    println!("{}", head("ns an element", &names));
    for task in &TASKS {
        let times = timed(task, &mut sides, ROUNDS, TURN)?;
        println!("{}", line(task.name, &times, &names));
    }
    Ok(())
}

/// Times a task; the sides take turns. An error where two sides come to
/// different sums.
pub fn timed(
    task: &Task,
    sides: &mut Sides,
    rounds: usize,
    turn: Duration,
) -> Result<Times, String> {
    let blocks = |side: &(_, Box<dyn Walker>)| vec![f64::INFINITY; side.1.blocks()];
    let mut best: Vec<Vec<f64>> = sides.iter().map(blocks).collect();
    let mut sum = None;
    for _ in 0..rounds {
        for ((name, side), best) in sides.iter_mut().zip(&mut best) {
            if task.check && !side.has_check() {
                continue;
            }
            let found = passes(task, side.as_mut(), turn, best);
            let found = found.map_err(|why| format!("{name}: {why}"))?;
            if *sum.get_or_insert(found) != found {
                return Err(format!("{name}: {found:?}, another side: {sum:?}"));
            }
        }
    }
    let seconds = best.iter().map(|best| best.iter().sum());
    Ok(Times {
        elements: sum.map_or(0, |sum| sum.elements),
        seconds: seconds
            .map(|s: f64| Some(s).filter(|s| s.is_finite()))
            .collect(),
    })
}

/// As many passes over all blocks as fill a turn.
fn passes(
    task: &Task,
    side: &mut dyn Walker,
    turn: Duration,
    best: &mut [f64],
) -> Result<Sum, String> {
    let started = Instant::now();
    loop {
        let mut sum = Sum::default();
        for (block, best) in best.iter_mut().enumerate() {
            let before = Instant::now();
            sum.join(black_box(task.done_by(black_box(&mut *side), block)?));
            *best = best.min(before.elapsed().as_secs_f64());
        }
        if started.elapsed() >= turn {
            return Ok(sum);
        }
    }
}

/// The names of the sides, and of the ratios of those that the library has.
pub fn head(what: &str, names: &[&str]) -> String {
    let mut head = format!("{what:<20}");
    for name in names {
        head += &format!("{name:>10}");
    }
    for name in library(names) {
        head += &format!("{:>15}", format!("time {name}"));
    }
    head
}

pub fn line(name: &str, times: &Times, names: &[&str]) -> String {
    let mut line = format!("{name:<20}");
    for side in 0..names.len() {
        let shown = times.nanoseconds(side).map(|ns| format!("{ns:.1}"));
        line += &format!("{:>10}", shown.unwrap_or("-".to_string()));
    }
    let other = other(times, names);
    for side in 0..library(names).len() {
        let ratio = other.and_then(|(name, ns)| Some((name, times.nanoseconds(side)? / ns)));
        let shown = ratio.map(|(name, ratio)| format!("{ratio:.2} {}", &name[..4]));
        line += &format!("{:>15}", shown.unwrap_or_default());
    }
    line
}

/// The library's sides, which are the first.
fn library<'a>(names: &'a [&'a str]) -> &'a [&'a str] {
    let others = names
        .iter()
        .filter(|&&name| name == PUBLISHED || name == READER);
    &names[..names.len() - others.count()]
}

/// The side that ratios are taken to, and its nanoseconds: the published Rust
/// where it has the task, else the simple reader.
fn other<'a>(times: &Times, names: &[&'a str]) -> Option<(&'a str, f64)> {
    let by = |name: &str| names.iter().position(|&other| other == name);
    let found = [by(PUBLISHED), by(READER)].into_iter().flatten();
    let mut told = found.filter_map(|side| Some((names[side], times.nanoseconds(side)?)));
    told.next()
}
