//! `mapblock report`: one page to attach to a ticket, with nothing outside it:
//! what was checked, what came of each block, totals, and the drawing.

mod page;
mod totals;

use std::fs;
use std::io::{self, Write};
use std::path::Path;

use crate::elements::Elements;
use crate::map::Map;
use crate::outcomes::{Accepted, Outcome, Outcomes, Refusal};
use crate::output::{Fault, Status, complain, complain_of, opened};
use crate::pbf::Damage;
use totals::Totals;

/// What the page tells.
struct Report {
    /// The file's name without its folder.
    name: String,
    is_pbf: bool,
    accepted: Vec<Row>,
    refused: Vec<Refusal>,
    damaged: Vec<Damage>,
    totals: Totals,
    map: Map,
}

/// An accepted block.
struct Row {
    number: usize,
    /// Where its blob begins in the file.
    at: u64,
    bytes: usize,
    totals: Totals,
}

pub fn run(path: &Path, page: &Path, out: &mut dyn Write) -> io::Result<Status> {
    let Some(outcomes) = opened(path, Outcomes::open_with_progress(path)) else {
        return Ok(Status::Unread);
    };
    let (report, faults) = read(path, outcomes);
    complain_of(path, faults);
    if let Err(how) = fs::write(page, page::html(&report)) {
        complain(page, format!("it can't be written: {how}"));
        return Ok(Status::Unread);
    }
    writeln!(out, "{}: written", page.display())?;
    Ok(report.status())
}

fn read(path: &Path, outcomes: Outcomes) -> (Report, Vec<Fault>) {
    let name = path.file_name().unwrap_or_default().to_string_lossy();
    let mut report = Report {
        name: name.to_string(),
        is_pbf: outcomes.is_pbf(),
        accepted: Vec::new(),
        refused: Vec::new(),
        damaged: Vec::new(),
        totals: Totals::default(),
        map: Map::default(),
    };
    let mut faults = Vec::new();
    for outcome in outcomes {
        faults.extend(outcome.fault());
        match outcome {
            Outcome::Accepted(accepted) => report.accept(accepted),
            Outcome::Refused(refusal) => report.refused.push(refusal),
            Outcome::Damaged(damage) => report.damaged.push(damage),
        }
    }
    (report, faults)
}

impl Report {
    fn accept(&mut self, mut accepted: Accepted) {
        let mut totals = Totals::default();
        for element in Elements::plain(&mut accepted.block) {
            totals.count(&element);
            self.map.add(element);
        }
        self.totals.add(&totals);
        self.accepted.push(Row {
            number: accepted.number,
            at: accepted.at,
            bytes: accepted.block.length(),
            totals,
        });
    }

    fn status(&self) -> Status {
        Status::of(!self.refused.is_empty(), !self.damaged.is_empty())
    }
}
