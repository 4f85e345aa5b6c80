//! The report's page: HTML with its style and its script inside.

use super::{Report, Row};
use crate::map::svg;
use crate::outcomes::Refusal;
use crate::output::Status;
use crate::pbf::Damage;
use crate::words;
use crate::xml::escape;

const STYLE: &str = include_str!("page.css");
const SCRIPT: &str = include_str!("page.js");

pub fn html(report: &Report) -> String {
    let name = escape(&report.name);
    let (verdict, mood) = verdict(report);
    let facts = facts(report);
    let faults = faults(report);
    let totals = totals(report);
    let blocks = blocks(report);
    let drawing = svg(&report.map, &report.name);
    format!(
        "<!DOCTYPE html>\n<html lang=\"en\">\n<head>\n<meta charset=\"utf-8\">\n\
         <meta name=\"viewport\" content=\"width=device-width, initial-scale=1\">\n\
         <title>{name}: map report</title>\n<style>\n{STYLE}</style>\n</head>\n<body>\n\
         <h1>Map report: {name}</h1>\n<p class=\"verdict {mood}\">{verdict}</p>\n\
         {faults}<h2>What was checked</h2>\n{facts}\
         <h2>What the accepted blocks hold</h2>\n{totals}\
         <h2>The map as a camera draws it</h2>\n\
         <p>Drag to move, turn the wheel or press + and - to enlarge, 0 for the whole map; \
         point at a line for its tags.</p>\n\
         <div id=\"drawing\" tabindex=\"0\">\n{drawing}<pre id=\"tags\" hidden></pre>\n</div>\n\
         <h2>Each block</h2>\n{blocks}\
         <p class=\"note\">Blocks, groups and elements are counted from 0, as the library counts \
         them. Written by mapblock {}.</p>\n<script>\n{SCRIPT}</script>\n</body>\n</html>\n",
        env!("CARGO_PKG_VERSION")
    )
}

/// The outcome in one sentence, and the colour that goes with it.
fn verdict(report: &Report) -> (String, &'static str) {
    let (accepted, refused) = (report.accepted.len(), report.refused.len());
    let outcome = match (accepted + refused, refused) {
        (0, _) => "There are no blocks".to_string(),
        (1, 0) => "A camera accepts the block".to_string(),
        (1, _) => "A camera refuses the block".to_string(),
        (blocks, 0) => format!("A camera accepts all {blocks} blocks"),
        (blocks, _) => format!("A camera refuses {refused} of {blocks} blocks"),
    };
    match (report.status(), report.damaged.len()) {
        (Status::Fine, _) => (format!("{outcome}."), "good"),
        (Status::Refused, _) => (format!("{outcome}."), "bad"),
        (Status::Unread, 1) => (format!("{outcome}, and one can't be read."), "bad"),
        (Status::Unread, unread) => (format!("{outcome}, and {unread} can't be read."), "bad"),
    }
}

fn facts(report: &Report) -> String {
    let kind = if report.is_pbf {
        "a whole map (.osm.pbf)"
    } else {
        "a single block"
    };
    let bytes: usize = report.accepted.iter().map(|row| row.bytes).sum();
    table(&[
        ("file", report.name.clone()),
        ("kind", kind.to_string()),
        ("blocks accepted", report.accepted.len().to_string()),
        ("blocks refused", report.refused.len().to_string()),
        ("blobs that can't be read", report.damaged.len().to_string()),
        ("bytes in accepted blocks", bytes.to_string()),
    ])
}

fn totals(report: &Report) -> String {
    let totals = &report.totals;
    table(&[
        ("nodes", totals.nodes.to_string()),
        ("ways", totals.ways.to_string()),
        ("nodes of ways", totals.refs.to_string()),
        ("relations", totals.relations.to_string()),
        ("members of relations", totals.members.to_string()),
        ("tags", totals.tags.to_string()),
    ])
}

/// A table of two columns.
fn table(rows: &[(&str, String)]) -> String {
    let rows: String = rows
        .iter()
        .map(|(what, value)| format!("<tr><th>{what}</th><td>{}</td></tr>\n", escape(value)))
        .collect();
    format!("<table>\n{rows}</table>\n")
}

/// What is wrong, where, and what to mend; nothing where nothing is.
fn faults(report: &Report) -> String {
    let damaged: String = report.damaged.iter().map(damage).collect();
    let refused: String = report.refused.iter().map(refusal).collect();
    if damaged.is_empty() && refused.is_empty() {
        return String::new();
    }
    format!("<h2>What is wrong</h2>\n{damaged}{refused}")
}

fn damage(damage: &Damage) -> String {
    let words = sentence(&damage.to_string());
    format!("<div class=\"fault\">\n<p>{words}.</p>\n</div>\n")
}

fn refusal(refusal: &Refusal) -> String {
    let Refusal {
        block,
        at,
        number,
        place,
    } = refusal;
    let words = words::of(*number);
    let place = place.as_ref().map(|place| escape(&place.to_string()));
    format!(
        "<div class=\"fault\">\n<h3>Block {block} (blob at byte {at}): number {number}</h3>\n\
         <p>{}.</p>\n<p><b>Where:</b> {}.</p>\n<p><b>To mend:</b> {}.</p>\n</div>\n",
        sentence(words.means),
        place.unwrap_or("not found".to_string()),
        escape(words.mend)
    )
}

/// With a capital letter.
fn sentence(words: &str) -> String {
    let mut letters = words.chars();
    let first: String = letters
        .next()
        .into_iter()
        .flat_map(char::to_uppercase)
        .collect();
    escape(&format!("{first}{}", letters.as_str()))
}

/// A line for each block, in the order of the file.
fn blocks(report: &Report) -> String {
    let accepted = report
        .accepted
        .iter()
        .map(|row| (row.number, accepted_row(row)));
    let refused = report
        .refused
        .iter()
        .map(|refusal| (refusal.block, refused_row(refusal)));
    let mut rows: Vec<(usize, String)> = accepted.chain(refused).collect();
    rows.sort_by_key(|(number, _)| *number);
    let rows: String = rows.into_iter().map(|(_, row)| row).collect();
    format!(
        "<table class=\"blocks\">\n<tr><th>block</th><th>blob at byte</th><th>outcome</th>\
         <th>bytes</th><th>elements</th></tr>\n{rows}</table>\n"
    )
}

fn accepted_row(row: &Row) -> String {
    let Row {
        number,
        at,
        bytes,
        totals,
    } = row;
    let elements = totals.elements();
    format!(
        "<tr><td>{number}</td><td>{at}</td><td>accepted</td>\
         <td>{bytes}</td><td>{elements}</td></tr>\n"
    )
}

fn refused_row(refusal: &Refusal) -> String {
    let Refusal {
        block, at, number, ..
    } = refusal;
    let means = escape(words::of(*number).means);
    format!(
        "<tr class=\"refused\"><td>{block}</td><td>{at}</td>\
         <td>refused with number {number}: {means}</td><td></td><td></td></tr>\n"
    )
}
