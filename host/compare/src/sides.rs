//! Which sides the simple reader was held against, told at the end of a run.

use crate::by_c;
use crate::by_published;

/// What a run was compared with, and what it was not and how that is had.
pub fn told(list: bool, maps: bool) -> String {
    let sides = [
        Side {
            name: "the fixed list",
            which: list.then_some("vectors/answers.txt"),
            how: "--list names it",
        },
        Side {
            name: "the published Rust",
            which: by_published::COMMIT,
            how: "PBFHOGG_SRC names it",
        },
        Side {
            name: "the library through C",
            which: by_c::ARCHIVE,
            how: "PROVED=1 has it made",
        },
        Side {
            name: "real maps",
            which: maps.then_some("as osmium prints them"),
            how: "NUORPYTS_MAP names one",
        },
    ];
    let mut text = String::from("the simple reader was compared with");
    for side in &sides {
        text.push_str(&match side.which {
            Some(which) => format!("\n  {}: {which}", side.name),
            None => format!("\n  NOT {}: {}", side.name, side.how),
        });
    }
    text
}

struct Side {
    name: &'static str,
    /// None where it took no part.
    which: Option<&'static str>,
    /// How it is had.
    how: &'static str,
}
