//! `mapblock check`: what the library says of each block of each file, for
//! people or for scripts.

mod for_people;
mod for_scripts;

use std::io::{self, Write};
use std::path::{Path, PathBuf};

use crate::outcomes::{Outcome, Outcomes, Refusal};
use crate::output::Status;
use crate::pbf::Damage;

/// What came of one file that could be opened.
struct Checked {
    is_pbf: bool,
    accepted: usize,
    refused: Vec<Refusal>,
    damaged: Vec<Damage>,
}

impl Checked {
    fn status(&self) -> Status {
        Status::of(!self.refused.is_empty(), !self.damaged.is_empty())
    }

    fn blocks(&self) -> usize {
        self.accepted + self.refused.len()
    }
}

pub fn run(files: &[PathBuf], as_json: bool, out: &mut dyn Write) -> io::Result<Status> {
    let mut status = Status::Fine;
    let mut objects = Vec::new();
    for path in files {
        let checked = check(path);
        status = status.max(checked.as_ref().map_or(Status::Unread, Checked::status));
        if as_json {
            objects.push(for_scripts::object(path, &checked));
        } else {
            for_people::tell(path, &checked, out)?;
        }
    }
    if as_json {
        writeln!(out, "{}", for_scripts::whole(objects, status))?;
    }
    Ok(status)
}

fn check(path: &Path) -> Result<Checked, String> {
    let outcomes = Outcomes::open_with_progress(path)?;
    let mut checked = Checked {
        is_pbf: outcomes.is_pbf(),
        accepted: 0,
        refused: Vec::new(),
        damaged: Vec::new(),
    };
    for outcome in outcomes {
        match outcome {
            Outcome::Accepted(_) => checked.accepted += 1,
            Outcome::Refused(refusal) => checked.refused.push(refusal),
            Outcome::Damaged(damage) => checked.damaged.push(damage),
        }
    }
    Ok(checked)
}
