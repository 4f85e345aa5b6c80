//! `mapblock draw`: the accepted blocks of a map as a picture.

use std::fs;
use std::io::{self, Write};
use std::path::Path;

use crate::elements::Elements;
use crate::map::{Map, svg};
use crate::outcomes::{Outcome, Outcomes};
use crate::output::{Status, complain, complain_of, opened};

pub fn run(path: &Path, picture: &Path, out: &mut dyn Write) -> io::Result<Status> {
    let Some(outcomes) = opened(path, Outcomes::open_with_progress(path)) else {
        return Ok(Status::Unread);
    };
    let mut map = Map::default();
    let mut faults = Vec::new();
    for outcome in outcomes {
        faults.extend(outcome.fault());
        if let Outcome::Accepted(mut accepted) = outcome {
            Elements::plain(&mut accepted.block).for_each(|element| map.add(element));
        }
    }
    let status = complain_of(path, faults);
    let name = path.file_name().unwrap_or_default().to_string_lossy();
    if let Err(how) = fs::write(picture, svg(&map, &name)) {
        complain(picture, format!("it can't be written: {how}"));
        return Ok(Status::Unread);
    }
    writeln!(out, "{}: drawn", picture.display())?;
    Ok(status)
}
