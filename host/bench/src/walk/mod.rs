//! Whole plain walks, timed side by side: the proved library through C, by
//! single calls and in batches, the published Rust and the simple reader. All
//! of them must come to the same sums.

#[cfg_attr(not(feature = "published"), path = "without_published.rs")]
mod by_published;
mod by_reader;
mod growth;
mod made;
mod sum;
mod table;
#[cfg_attr(not(feature = "proved"), path = "without_proved.rs")]
mod through_c;

pub use growth::print as print_growth;
pub use table::print as print_times;

use sum::Sum;

/// What is read of a block.
#[derive(Clone, Copy, PartialEq, Eq)]
pub enum What {
    /// Kind, id and raw position of each element.
    Elements,
    /// Also tags with their texts, references and members.
    Everything,
}

/// A side that has scanned its blocks.
pub trait Walker {
    fn blocks(&self) -> usize;

    /// Walks a block; an error where a step is refused.
    fn walk(&mut self, block: usize, what: What) -> Result<Sum, String>;

    /// Checks a block; an error where it is refused. Only where `has_check`.
    fn check(&mut self, block: usize) -> Result<(), String>;

    fn has_check(&self) -> bool;
}

type Sides = Vec<(&'static str, Box<dyn Walker>)>;

/// The name of the side that a ratio is taken to: the published Rust, and the
/// simple reader where there is none or it has no such function.
const PUBLISHED: &str = "published";
const READER: &str = "reader";

/// All sides that are at hand; the library's are the first.
fn sides(blocks: &[Vec<u8>]) -> Result<Sides, String> {
    let mut sides = through_c::sides(blocks)?;
    sides.extend(by_published::side(blocks)?);
    sides.push((READER, Box::new(by_reader::ByReader::new(blocks)?)));
    Ok(sides)
}
