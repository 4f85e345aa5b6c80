//! A file as the library judges it: block by block accepted, refused at a
//! place, or not to be had at all.

use std::fmt;
use std::path::Path;

use crate::block::Block;
use crate::input::{Blocks, FileBlock};
use crate::output::{Fault, Status};
use crate::pbf::Damage;
use crate::place::{self, Place};
use crate::words;

/// What came of one block, or of a blob that should hold one.
pub enum Outcome {
    Accepted(Accepted),
    Refused(Refusal),
    Damaged(Damage),
}

impl Outcome {
    /// What is wrong, if anything is.
    pub fn fault(&self) -> Option<Fault> {
        match self {
            Outcome::Accepted(_) => None,
            Outcome::Refused(refusal) => Some((Status::Refused, refusal.to_string())),
            Outcome::Damaged(damage) => Some((Status::Unread, damage.to_string())),
        }
    }
}

/// A block that the library accepts.
pub struct Accepted {
    /// The block's number in the file, from 0 on.
    pub number: usize,
    /// Where its blob begins in the file.
    pub at: u64,
    pub block: Block,
}

/// A block that the library refuses.
pub struct Refusal {
    /// The block's number in the file, from 0 on.
    pub block: usize,
    /// Where its blob begins in the file.
    pub at: u64,
    pub number: u32,
    pub place: Option<Place>,
}

/// In one line.
impl fmt::Display for Refusal {
    fn fmt(&self, f: &mut fmt::Formatter<'_>) -> fmt::Result {
        let Refusal { block, number, .. } = self;
        let means = words::of(*number).means;
        write!(f, "block {block} is refused with number {number}: {means}")?;
        match &self.place {
            Some(place) => write!(f, " ({place})"),
            None => Ok(()),
        }
    }
}

impl fmt::Display for Damage {
    fn fmt(&self, f: &mut fmt::Formatter<'_>) -> fmt::Result {
        if let Some(at) = self.at {
            write!(f, "the blob at byte {at}: ")?;
        }
        write!(f, "{}", self.what)
    }
}

/// The outcomes of a file's blocks, in its order.
pub struct Outcomes {
    blocks: Blocks,
    is_pbf: bool,
}

impl Outcomes {
    pub fn open(path: &Path) -> Result<Outcomes, String> {
        let blocks = Blocks::open(path)?;
        let is_pbf = blocks.is_pbf();
        Ok(Outcomes { blocks, is_pbf })
    }

    /// The same with a bar that shows how far the reading is.
    pub fn open_with_progress(path: &Path) -> Result<Outcomes, String> {
        let outcomes = Outcomes::open(path)?;
        Ok(Outcomes {
            blocks: outcomes.blocks.with_progress(),
            ..outcomes
        })
    }

    /// Whether the file is a whole .osm.pbf.
    pub fn is_pbf(&self) -> bool {
        self.is_pbf
    }

    fn outcome(&self, found: FileBlock) -> Outcome {
        let FileBlock { number, at, bytes } = found;
        let mut block = Block::read(bytes);
        if block.is_accepted() {
            return Outcome::Accepted(Accepted { number, at, block });
        }
        let format = (!self.is_pbf).then(|| other_format(block.bytes(0..3)));
        if let Some(format) = format.flatten() {
            return Outcome::Damaged(Damage {
                at: None,
                what: format!("this is {format}, no PBF"),
            });
        }
        Outcome::Refused(Refusal {
            block: number,
            at,
            number: block.number(),
            place: place::find(&mut block),
        })
    }
}

impl Iterator for Outcomes {
    type Item = Outcome;

    fn next(&mut self) -> Option<Outcome> {
        match self.blocks.next()? {
            Ok(found) => Some(self.outcome(found)),
            Err(damage) => Some(Outcome::Damaged(damage)),
        }
    }
}

/// What else a file may be that people take for a map, by its first bytes.
/// Asked only of a block that is refused.
fn other_format(start: &[u8]) -> Option<&'static str> {
    match start {
        [b'<', ..] => Some("XML"),
        [0x1F, 0x8B, ..] => Some("gzip data"),
        [b'B', b'Z', b'h'] => Some("bzip2 data"),
        [b'P', b'K', ..] => Some("a zip archive"),
        [0xFF, 0xE0, ..] => Some("an o5m map"),
        _ => None,
    }
}
