//! The listing as text and the library's comparison agree: over the judge's
//! pairs of blocks, equal and not, two accepted blocks have the same text
//! exactly where they list the same, and else the first difference is told.

use mapblock::block::Block;
use mapblock::compare::{UNLISTED, difference};
use mapblock::list::list;

const SEED: u64 = 5;
const OF_EACH_FAMILY: usize = 2000;

fn text(bytes: &[u8]) -> String {
    let mut out = Vec::new();
    list(0, Block::read(bytes.to_vec()), false, &mut out).expect("memory takes all");
    String::from_utf8(out).expect("a listing is UTF-8")
}

#[test]
fn two_blocks_have_the_same_text_exactly_where_they_list_the_same() {
    let (mut same, mut different) = (0, 0);
    generate::for_each_pair(SEED, OF_EACH_FAMILY, &mut |family, first, second| {
        let blocks = [first, second].map(|bytes| Block::read(bytes.to_vec()));
        if !blocks.iter().all(Block::is_accepted) {
            return;
        }
        let [a, b] = blocks;
        let told = difference(["a", "b"], a, b);
        let is_same = text(first) == text(second);
        assert_eq!(told.is_none(), is_same, "{family}: {told:?}");
        assert_ne!(told.as_deref(), Some(UNLISTED));
        if family != "changed" {
            assert!(is_same, "{family}: {told:?}");
        }
        *(if is_same { &mut same } else { &mut different }) += 1;
    });
    assert!(same > OF_EACH_FAMILY && different > OF_EACH_FAMILY / 4);
}
