//! A bar that shows how much of a long file has been read. It stands on
//! standard error, and only where a person sees both: at a terminal that the
//! results do not leave by a pipe.

use std::io::{IsTerminal, stderr, stdout};

use indicatif::{ProgressBar, ProgressStyle};

/// Shorter files are read before anyone would look at a bar.
const LONG: u64 = 4 << 20;

pub struct Progress(Option<ProgressBar>);

impl Progress {
    pub fn hidden() -> Progress {
        Progress(None)
    }

    /// That of a file of so many bytes.
    pub fn of(file_len: u64) -> Progress {
        let is_seen = stderr().is_terminal() && stdout().is_terminal();
        Progress((is_seen && file_len >= LONG).then(|| bar(file_len)))
    }

    pub fn reached(&self, bytes: u64) {
        if let Some(bar) = &self.0 {
            bar.set_position(bytes);
        }
    }

    pub fn done(&self) {
        if let Some(bar) = &self.0 {
            bar.finish_and_clear();
        }
    }
}

fn bar(file_len: u64) -> ProgressBar {
    let bar = ProgressBar::new(file_len);
    let template = "{wide_bar} {bytes} of {total_bytes}, {eta} to go";
    // The template is fixed; where a later indicatif does not know it, the
    // bar has its own look.
    bar.set_style(
        ProgressStyle::with_template(template).unwrap_or_else(|_| ProgressStyle::default_bar()),
    );
    bar
}
