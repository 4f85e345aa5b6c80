//! Properties of accepted blocks: the plain and the full walk hand out the
//! listings, element by element; and two listings are equal exactly when the
//! two contents are. The second is about pairs of blocks: over all accepted
//! blocks seen, a listing goes with one content and a content with one
//! listing. Each is kept as a 64-bit hash of its text.

use std::collections::HashMap;
use std::fmt::{self, Debug, Write};
use std::hash::{DefaultHasher, Hasher};

use crate::by_reader;
use crate::tally::Tally;

#[derive(Default)]
pub struct Pairs {
    content_of: HashMap<u64, u64>,
    listing_of: HashMap<u64, u64>,
    blocks: u64,
}

impl Pairs {
    /// Number of pairs that the blocks so far make.
    pub fn count(&self) -> u128 {
        let blocks = u128::from(self.blocks);
        blocks * blocks.saturating_sub(1) / 2
    }

    /// One more accepted block, against itself and all before.
    pub fn accepted(&mut self, bytes: &[u8], tally: &mut Tally) {
        self.blocks += 1;
        let (Ok(listing), Ok(content)) = (reader::listing(bytes), reader::content(bytes)) else {
            return tally.broken("an accepted block has no listing or content", bytes, "");
        };
        if !walks_are_listings(bytes) {
            tally.broken("a walk is not the listing", bytes, "");
        }
        let (listed, contained) = (hash(&listing), hash(&content));
        let same_content = *self.content_of.entry(listed).or_insert(contained) == contained;
        let same_listing = *self.listing_of.entry(contained).or_insert(listed) == listed;
        if !(same_content && same_listing) {
            tally.broken("listings equal and contents not, or the reverse", bytes, "");
        }
    }
}

fn walks_are_listings(bytes: &[u8]) -> bool {
    by_reader::open(bytes).is_ok_and(|(buffer, record)| {
        reader::walked(&buffer, &record) == reader::listing(bytes)
            && reader::walked_full(&buffer, &record) == reader::full_listing(bytes)
    })
}

/// A hash of a value's text; equal values have equal texts and the reverse.
fn hash(value: &impl Debug) -> u64 {
    struct Text(DefaultHasher);
    impl fmt::Write for Text {
        fn write_str(&mut self, text: &str) -> fmt::Result {
            self.0.write(text.as_bytes());
            Ok(())
        }
    }
    let mut text = Text(DefaultHasher::new());
    let written = write!(text, "{value:?}");
    debug_assert!(written.is_ok(), "the writer above takes everything");
    text.0.finish()
}
