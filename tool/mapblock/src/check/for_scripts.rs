//! Outcomes as JSON, by the same words that people get.

use std::path::Path;

use super::Checked;
use crate::json;
use crate::outcomes::Refusal;
use crate::output::Status;
use crate::pbf::Damage;
use crate::place::Place;
use crate::words;

/// All files' objects, and the exit status.
pub fn whole(files: Vec<String>, status: Status) -> String {
    json::object(&[
        ("files", json::list(files)),
        ("status", (status as u8).to_string()),
    ])
}

/// The object of one file.
pub fn object(path: &Path, checked: &Result<Checked, String>) -> String {
    let name = ("file", json::text(&path.to_string_lossy()));
    let checked = match checked {
        Ok(checked) => checked,
        Err(why) => return json::object(&[name, ("error", json::text(why))]),
    };
    let kind = if checked.is_pbf { "osm.pbf" } else { "block" };
    json::object(&[
        name,
        ("kind", json::text(kind)),
        ("blocks", checked.blocks().to_string()),
        ("accepted", checked.accepted.to_string()),
        (
            "refused",
            json::list(checked.refused.iter().map(refusal_json)),
        ),
        (
            "damaged",
            json::list(checked.damaged.iter().map(damage_json)),
        ),
    ])
}

fn refusal_json(refusal: &Refusal) -> String {
    let words = words::of(refusal.number);
    json::object(&[
        ("block", refusal.block.to_string()),
        ("blob_at", refusal.at.to_string()),
        ("number", refusal.number.to_string()),
        ("means", json::text(words.means)),
        ("mend", json::text(words.mend)),
        (
            "place",
            json::or_null(refusal.place.as_ref().map(place_json)),
        ),
    ])
}

fn place_json(place: &Place) -> String {
    let element = place.element.as_ref();
    json::object(&[
        ("group", json::or_null(place.group)),
        (
            "kind",
            json::or_null(element.map(|element| json::text(element.kind))),
        ),
        (
            "element",
            json::or_null(element.map(|element| element.index)),
        ),
        ("id", json::or_null(element.and_then(|element| element.id))),
        ("what", json::text(&place.what)),
        ("start", place.bytes.start.to_string()),
        ("end", place.bytes.end.to_string()),
        ("byte", place.byte.to_string()),
    ])
}

fn damage_json(damage: &Damage) -> String {
    json::object(&[
        ("blob_at", json::or_null(damage.at)),
        ("what", json::text(&damage.what)),
    ])
}
