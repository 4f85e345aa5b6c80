//! The one table from the Rust's sentences to document 01's numbers, and the
//! catching of the panics that carry them.

use std::any::Any;
use std::cell::Cell;
use std::fmt::{self, Display};
use std::panic::{AssertUnwindSafe, catch_unwind, set_hook, take_hook};
use std::sync::Once;

/// A part of the sentence, and the number. The first six are the stand-in's.
const NUMBERS: [(&str, u8); 12] = [
    ("stand-in: bytes end in a varint", 2),
    ("stand-in: ten varint bytes with the top bit set", 3),
    ("stand-in: tag out of range", 4),
    ("stand-in: wire type refused", 5),
    ("stand-in: value passes the end", 6),
    ("stand-in: groups too deep", 7),
    ("PrimitiveBlock.granularity exceeds int32", 8),
    ("PrimitiveBlock.date_granularity exceeds int32", 8),
    (
        "appears twice with data; packed field split across segments",
        9,
    ),
    ("appears twice with data; message merge is unsupported", 10),
    ("PrimitiveGroup.dense appears twice", 11),
    ("arrays differ in length", 12),
];

/// How the Rust refused: with a number of document 01, or in a way that it
/// has no number for.
#[derive(Clone, Debug, PartialEq, Eq)]
pub enum Refused {
    Number(u8),
    Other(String),
}

impl Display for Refused {
    fn fmt(&self, f: &mut fmt::Formatter<'_>) -> fmt::Result {
        match self {
            Refused::Number(number) => write!(f, "{number}"),
            Refused::Other(text) => f.write_str(text),
        }
    }
}

/// The refusal that an error or a panic's text stands for.
pub fn refused(text: impl Display) -> Refused {
    let text = text.to_string();
    match NUMBERS.iter().find(|(part, _)| text.contains(part)) {
        Some(&(_, number)) => Refused::Number(number),
        None => Refused::Other(text),
    }
}

thread_local! {
    static CATCHING: Cell<bool> = const { Cell::new(false) };
}

/// Runs a part of the Rust whose refusals are panics.
pub fn caught<T>(run: impl FnOnce() -> T) -> Result<T, Refused> {
    hush();
    CATCHING.set(true);
    let answer = catch_unwind(AssertUnwindSafe(run));
    CATCHING.set(false);
    answer.map_err(|payload| refused(panic_text(&*payload)))
}

/// A caught panic is an answer and not printed; any other still is.
fn hush() {
    static ONCE: Once = Once::new();
    ONCE.call_once(|| {
        let loud = take_hook();
        set_hook(Box::new(move |info| {
            if !CATCHING.get() {
                loud(info);
            }
        }));
    });
}

fn panic_text(payload: &(dyn Any + Send)) -> &str {
    if let Some(text) = payload.downcast_ref::<String>() {
        text
    } else {
        payload
            .downcast_ref::<&str>()
            .copied()
            .unwrap_or("panic without a text")
    }
}
