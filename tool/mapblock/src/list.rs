//! `mapblock list`: the listing of each block as text, a line an element, the
//! same text wherever the listing is the same.

use std::io::{self, Write};
use std::path::Path;

use crate::block::Block;
use crate::elements::{Element, Elements, Metadata};
use crate::outcomes::{Outcome, Outcomes};
use crate::output::{Status, complain_of, opened};
use crate::text;

pub fn run(path: &Path, is_full: bool, out: &mut dyn Write) -> io::Result<Status> {
    let Some(outcomes) = opened(path, Outcomes::open(path)) else {
        return Ok(Status::Unread);
    };
    let mut status = Status::Fine;
    for outcome in outcomes {
        if let Some(fault) = outcome.fault() {
            // What was listed stands before the complaint.
            out.flush()?;
            status = status.max(complain_of(path, [fault]));
        }
        if let Outcome::Accepted(accepted) = outcome {
            list(accepted.number, accepted.block, is_full, out)?;
        }
    }
    Ok(status)
}

/// Prints an accepted block; `number` is the block's number in its file.
pub fn list(number: usize, mut block: Block, is_full: bool, out: &mut dyn Write) -> io::Result<()> {
    let head = block.head();
    write!(
        out,
        "block {number}: granularity {}, latitude offset {}, longitude offset {}, groups {}",
        head.granularity, head.lat_offset, head.lon_offset, head.groups
    )?;
    if is_full {
        write!(out, ", date granularity {}", head.date_granularity)?;
    }
    writeln!(out)?;
    let elements = if is_full {
        Elements::full(&mut block)
    } else {
        Elements::plain(&mut block)
    };
    for element in elements {
        writeln!(out, "{}", line(&element))?;
    }
    Ok(())
}

/// `group 0 way 17: "highway"="path", nodes 1 2 3`.
fn line(element: &Element) -> String {
    let mut parts = Vec::new();
    if let (Some((lat, lon)), Some(degrees)) = (element.position, element.nanodegrees) {
        let [y, x] = [degrees.0, degrees.1].map(text::degrees);
        parts.push(format!("position {lat} {lon} ({y} {x})"));
    }
    parts.extend(element.tags.iter().map(text::tag));
    if !element.refs.is_empty() {
        let refs: Vec<String> = element.refs.iter().map(i64::to_string).collect();
        parts.push(format!("nodes {}", refs.join(" ")));
    }
    let members = element.members.iter().map(text::member);
    parts.extend(members.map(|member| format!("member {member}")));
    parts.extend(element.metadata.iter().flat_map(metadata));
    let name = format!("group {} {}", element.group, text::name(element));
    if parts.is_empty() {
        return name;
    }
    format!("{name}: {}", parts.join(", "))
}

/// What is absent is left out.
fn metadata(metadata: &Metadata) -> Vec<String> {
    let numbers = [
        ("version", metadata.version),
        ("timestamp", metadata.timestamp),
        ("changeset", metadata.changeset),
        ("uid", metadata.uid),
        ("user_sid", metadata.user_sid),
    ];
    let mut parts: Vec<String> = numbers
        .into_iter()
        .filter_map(|(name, value)| Some(format!("{name} {}", value?)))
        .collect();
    parts.extend(
        metadata
            .user
            .iter()
            .map(|user| format!("user {}", text::quoted(user))),
    );
    parts.extend(metadata.visible.map(|visible| {
        let how = if visible { "visible" } else { "not visible" };
        how.to_string()
    }));
    parts
}
