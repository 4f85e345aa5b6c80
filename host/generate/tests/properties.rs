//! What the generated inputs are good for, seen through the simple reader: how
//! many are accepted by family, which numbers they reach, that walks give the
//! listings, that pairs of equal content are equal, and that limits are met.

use std::collections::BTreeMap;

use generate::*;
use reader::{check, content, full_listing, listing, scan, walked, walked_full, Record, Refusal};

/// The block with room for its tables, scanned; a refusal writes nothing.
fn scanned(block: &[u8]) -> Result<(Vec<u8>, Record), Refusal> {
    let mut buffer = block.to_vec();
    buffer.resize(block.len() * 5 + 8, 0xEE);
    let before = buffer.clone();
    match scan(&mut buffer, block.len() as u64) {
        Ok(record) => {
            assert_eq!(buffer[..block.len()], before[..block.len()]);
            Ok((buffer, record))
        }
        Err(number) => {
            assert_eq!(buffer, before);
            Err(number)
        }
    }
}

fn outcome(block: &[u8]) -> Refusal {
    match scanned(block).and_then(|(buffer, record)| check(&buffer, &record)) {
        Ok(()) => 0,
        Err(number) => number,
    }
}

/// Runs over an accepted block give its listings, and it has a content.
fn assert_runs(block: &[u8]) {
    let (buffer, record) = scanned(block).expect("accepted");
    assert_eq!(walked(&buffer, &record), listing(block), "{block:02X?}");
    assert_eq!(
        walked_full(&buffer, &record),
        full_listing(block),
        "{block:02X?}"
    );
    assert!(listing(block).is_ok() && content(block).is_ok());
}

#[test]
fn accepted_share_by_family_and_runs() {
    let mut outcomes: BTreeMap<String, BTreeMap<Refusal, usize>> = BTreeMap::new();
    for_each_block(7, 20_000, &mut |family, block| {
        let number = outcome(block);
        if number == 0 {
            assert_runs(block);
        }
        *outcomes
            .entry(family.to_owned())
            .or_default()
            .entry(number)
            .or_default() += 1;
    });
    for (family, numbers) in &outcomes {
        let all: usize = numbers.values().sum();
        let accepted = numbers.get(&0).copied().unwrap_or(0);
        println!("{family}: {accepted} of {all} accepted; {numbers:?}");
    }
    let of = |family: &str, number| outcomes[family].get(&number).copied().unwrap_or(0);
    assert_eq!(of("structured", 0), 10_000, "legal blocks are accepted");
    assert_eq!(of("fixture", 0), 5);
    for number in 2..=12 {
        let reached = of("faulty", number) + of("unbalanced", number);
        assert!(reached > 10, "number {number} is reached {reached} times");
    }
}

#[test]
fn a_third_of_the_structured_blocks_is_accepted() {
    let mut accepted = 0;
    for_each_structured(11, 6000, &mut |_, block| {
        accepted += usize::from(outcome(block) == 0)
    });
    println!("{accepted} of 6000 structured blocks accepted");
    assert!(accepted >= 2000);
}

#[test]
fn the_same_seed_gives_the_same_blocks() {
    let gather = |seed| {
        let mut blocks = Vec::new();
        for_each_structured(seed, 200, &mut |_, block| blocks.push(block.to_vec()));
        blocks
    };
    assert_eq!(gather(5), gather(5));
    assert_ne!(gather(5), gather(6));
    assert_eq!(gather(5)[17], structured(5, 17).1);
}

#[test]
fn pairs_are_equal_where_they_should_be() {
    let mut seen: BTreeMap<String, [usize; 3]> = BTreeMap::new();
    for_each_pair(3, 2000, &mut |family, one, other| {
        let counts = seen.entry(family.to_owned()).or_default();
        if outcome(one) != 0 || outcome(other) != 0 {
            counts[2] += 1;
            return;
        }
        let equal = listing(one) == listing(other);
        assert_eq!(
            equal,
            content(one) == content(other),
            "{one:02X?} {other:02X?}"
        );
        counts[usize::from(!equal)] += 1;
    });
    println!("equal, unequal, refused: {seen:?}");
    for family in ["respelled", "raised", "renumbered", "other metadata"] {
        assert_eq!(seen[family], [2000, 0, 0], "{family}");
    }
    assert!(seen["changed"][1] > 1000);
}

#[test]
fn payloads_reach_every_view() {
    let mut good: BTreeMap<String, [usize; 2]> = BTreeMap::new();
    for_each_payload(9, 2000, &mut |message, family, bytes| {
        let read = match message {
            Message::Node => reader::Node::read(bytes, 0, bytes.len()).err(),
            Message::Way => reader::Way::read(bytes, 0, bytes.len()).err(),
            Message::Relation => reader::Relation::read(bytes, 0, bytes.len()).err(),
            Message::DenseNodes => reader::DenseNodes::read(bytes, 0, bytes.len()).err(),
            Message::DenseInfo => reader::DenseInfo::read(bytes, 0, bytes.len()).err(),
            Message::Info => reader::Info::read(bytes, 0, bytes.len()).err(),
            Message::Group => reader::dense_pass(bytes, 0, bytes.len()).err(),
            Message::StringTable | Message::Block => None,
        };
        assert!(
            family != "good" || read.is_none(),
            "{message:?} {bytes:02X?}"
        );
        let counts = good.entry(format!("{message:?} {family}")).or_default();
        counts[usize::from(read.is_some())] += 1;
    });
    println!("read, refused: {good:?}");
}

#[test]
fn limits_are_met() {
    let mut seen = Vec::new();
    for_each_limit(&mut |mut limit| {
        let number = scan(&mut limit.buffer, limit.block_len).err().unwrap_or(0);
        seen.push((limit.name, number));
    });
    let expected = [
        ("longest block, no tables", 0),
        ("one byte too long", 1),
        ("too long and bad inside", 1),
        ("too long, with room", 1),
        ("14 against 1", 14),
        ("14 against 1, large", 14),
        ("length past an empty buffer", 14),
        ("length one past the buffer", 14),
        ("largest length", 14),
        ("tables fit", 0),
        ("tables one byte short", 13),
        ("no room", 13),
        ("longest, tables fit", 0),
        ("longest, one byte short", 13),
        ("groups fit", 0),
        ("groups one byte short", 13),
        ("bad field before 13", 4),
        ("bad string before 13", 4),
    ];
    assert_eq!(seen, expected);
}

#[test]
fn small_strings_are_all_there() {
    let mut count = 0;
    small::all_up_to_two(&mut |_| count += 1);
    assert_eq!(count, 1 + 256 + 65_536);
}

#[test]
fn a_sweep_has_every_truncation_and_changes_one_byte() {
    let good = [0x12, 0x00, 0x0A];
    let (mut cut, mut changed) = (0, 0);
    sweep(&good, &mut |bytes| {
        if bytes.len() < good.len() {
            cut += 1;
        } else {
            assert_eq!(bytes.iter().zip(&good).filter(|(a, b)| a != b).count(), 1);
            changed += 1;
        }
    });
    assert_eq!((cut, changed), (3, 20));
}
