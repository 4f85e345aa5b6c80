//! How tags decide what is drawn: one table for lines and areas, one for the
//! places that have a name.

use crate::elements::Text;

/// What a way is drawn as, in the order of drawing: what comes later lies
/// above.
#[derive(Clone, Copy, Debug, PartialEq, Eq, PartialOrd, Ord)]
pub enum Class {
    Water,
    Stream,
    Fence,
    Road,
    Path,
}

impl Class {
    pub const ALL: [Class; 5] = [
        Class::Water,
        Class::Stream,
        Class::Fence,
        Class::Road,
        Class::Path,
    ];

    /// Its name in the picture's style sheet.
    pub fn id(self) -> &'static str {
        match self {
            Class::Water => "water",
            Class::Stream => "stream",
            Class::Fence => "fence",
            Class::Road => "road",
            Class::Path => "path",
        }
    }

    /// What the legend calls it.
    pub fn legend(self) -> &'static str {
        match self {
            Class::Water => "lake, river bed",
            Class::Stream => "stream, river",
            Class::Fence => "fence, wall",
            Class::Road => "road",
            Class::Path => "path, track",
        }
    }
}

/// What a place with a name is, the most important one first.
#[derive(Clone, Copy, Debug, PartialEq, Eq, PartialOrd, Ord)]
pub enum Mark {
    Town,
    Village,
    Hamlet,
    Peak,
}

impl Mark {
    pub fn id(self) -> &'static str {
        match self {
            Mark::Town => "town",
            Mark::Village => "village",
            Mark::Hamlet => "hamlet",
            Mark::Peak => "peak",
        }
    }

    /// The height of its letters in pixels, as the style sheet has it.
    pub fn font_size(self) -> f64 {
        match self {
            Mark::Town => 17.0,
            Mark::Village => 14.0,
            Mark::Hamlet => 12.0,
            Mark::Peak => 11.0,
        }
    }
}

/// Ways that people and animals walk rather than drive.
const PATHS: [&str; 7] = [
    "path",
    "footway",
    "track",
    "bridleway",
    "cycleway",
    "steps",
    "pedestrian",
];
/// What is written under highway and is not there yet, or never was a way.
const NO_ROADS: [&str; 4] = ["construction", "proposed", "platform", "rest_area"];
/// Lines of water; dams, weirs and locks are none.
const STREAMS: [&str; 7] = [
    "river",
    "stream",
    "canal",
    "drain",
    "ditch",
    "brook",
    "tidal_channel",
];

/// Whether a tag has one of these values.
pub fn has(tags: &[(Text, Text)], key: &str, values: &[&str]) -> bool {
    tags.iter()
        .any(|(k, v)| k == key.as_bytes() && values.iter().any(|value| v == value.as_bytes()))
}

fn has_key(tags: &[(Text, Text)], key: &str) -> bool {
    tags.iter().any(|(k, _)| k == key.as_bytes())
}

/// What a way or an area with these tags is drawn as, if at all. The edge of
/// an area that is not closed is drawn as a stream.
pub fn class(tags: &[(Text, Text)], is_closed: bool) -> Option<Class> {
    let is_water = has(tags, "natural", &["water"])
        || has(tags, "waterway", &["riverbank", "dock"])
        || has(tags, "landuse", &["reservoir", "basin"]);
    if is_water {
        Some(if is_closed {
            Class::Water
        } else {
            Class::Stream
        })
    } else if has(tags, "waterway", &STREAMS) {
        Some(Class::Stream)
    } else if has(tags, "highway", &PATHS) {
        Some(Class::Path)
    } else if has_key(tags, "highway") {
        (!has(tags, "highway", &NO_ROADS)).then_some(Class::Road)
    } else if has_key(tags, "barrier") {
        Some(Class::Fence)
    } else {
        None
    }
}

/// What a node with these tags is, if it is worth a name.
pub fn mark(tags: &[(Text, Text)]) -> Option<Mark> {
    if has(tags, "place", &["city", "town"]) {
        Some(Mark::Town)
    } else if has(tags, "place", &["village"]) {
        Some(Mark::Village)
    } else if has(
        tags,
        "place",
        &["hamlet", "suburb", "locality", "isolated_dwelling"],
    ) {
        Some(Mark::Hamlet)
    } else {
        has(tags, "natural", &["peak"]).then_some(Mark::Peak)
    }
}

#[cfg(test)]
mod tests {
    use super::{Class, Mark, class, mark};

    fn tagged(key: &str, value: &str) -> Vec<(Vec<u8>, Vec<u8>)> {
        vec![(key.into(), value.into())]
    }

    #[test]
    fn ways_are_drawn_by_their_tags() {
        for (key, value, expected) in [
            ("highway", "track", Some(Class::Path)),
            ("highway", "residential", Some(Class::Road)),
            ("highway", "proposed", None),
            ("barrier", "fence", Some(Class::Fence)),
            ("waterway", "river", Some(Class::Stream)),
            ("waterway", "dam", None),
            ("natural", "water", Some(Class::Water)),
            ("building", "yes", None),
        ] {
            assert_eq!(class(&tagged(key, value), true), expected, "{key}={value}");
        }
        assert_eq!(
            class(&tagged("natural", "water"), false),
            Some(Class::Stream)
        );
    }

    #[test]
    fn places_are_marked_by_their_tags() {
        assert_eq!(mark(&tagged("place", "village")), Some(Mark::Village));
        assert_eq!(mark(&tagged("natural", "peak")), Some(Mark::Peak));
        assert_eq!(mark(&tagged("natural", "tree")), None);
    }
}
