//! What the tool leaves behind: its exit status, and its complaints.

use std::fmt::Display;
use std::io::{self, Write};
use std::path::Path;

/// How a run ended, from best to worst; of several the worst counts.
#[derive(Clone, Copy, Debug, PartialEq, Eq, PartialOrd, Ord)]
pub enum Status {
    /// All accepted; the same.
    Fine = 0,
    /// Some refused; different.
    Refused = 1,
    /// No such file, no PBF, or nothing could be written.
    Unread = 2,
}

impl Status {
    /// That of a file with refused blocks, or with damage, or with neither.
    pub fn of(is_refused: bool, is_damaged: bool) -> Status {
        match (is_refused, is_damaged) {
            (_, true) => Status::Unread,
            (true, false) => Status::Refused,
            (false, false) => Status::Fine,
        }
    }
}

/// Says on standard error, in one line, what is wrong with a file.
pub fn complain(path: &Path, what: impl Display) {
    // Where standard error is closed, nobody is left to tell.
    let _ = writeln!(io::stderr(), "mapblock: {}: {what}", path.display());
}

/// What is wrong with a part of a file, in one line, and how bad that is.
pub type Fault = (Status, String);

/// Complains of all faults of a file, and says how bad the worst is. While a
/// bar is shown, faults are kept until it is gone.
pub fn complain_of(path: &Path, faults: impl IntoIterator<Item = Fault>) -> Status {
    faults
        .into_iter()
        .fold(Status::Fine, |worst, (status, what)| {
            complain(path, what);
            worst.max(status)
        })
}

/// What could be opened; else says in one line why not.
pub fn opened<T>(path: &Path, opened: Result<T, String>) -> Option<T> {
    opened.map_err(|why| complain(path, why)).ok()
}
