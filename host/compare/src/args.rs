//! The command line: a mode and a few numbers.

use std::path::PathBuf;
use std::time::Duration;

pub struct Args {
    /// How long the sweep over generated inputs takes.
    pub time: Duration,
    pub seed: u64,
    /// A folder of maps with their OPL texts.
    pub maps: Option<PathBuf>,
    /// The fixed list, checked with the rest.
    pub list: Option<String>,
    /// Write this list and do nothing else.
    pub write_list: Option<String>,
    /// Check this list and do nothing else.
    pub check_list: Option<String>,
}

pub const USAGE: &str = "\
usage: compare [--seconds N] [--seed N] [--maps FOLDER] [--list FILE]
       compare --write-list FILE
       compare --check-list FILE";

/// The arguments; none where they are not understood.
pub fn parse(mut words: impl Iterator<Item = String>) -> Option<Args> {
    let mut args = Args {
        time: Duration::from_secs(60),
        seed: 1,
        maps: None,
        list: None,
        write_list: None,
        check_list: None,
    };
    while let Some(word) = words.next() {
        let value = words.next()?;
        match word.as_str() {
            "--seconds" => args.time = Duration::from_secs(value.parse().ok()?),
            "--seed" => args.seed = value.parse().ok()?,
            "--maps" => args.maps = Some(PathBuf::from(value)),
            "--list" => args.list = Some(value),
            "--write-list" => args.write_list = Some(value),
            "--check-list" => args.check_list = Some(value),
            _ => return None,
        }
    }
    Some(args)
}
