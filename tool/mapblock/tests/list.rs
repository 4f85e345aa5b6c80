//! `mapblock list`, `compare` and `blocks` at a terminal.

mod common;

use std::fs;

use common::{blob, file, folder, pbf, raw, real_map, run, run_unread};
use generate::encode::{len_field, varint_field};
use generate::fixtures;

/// A block of the generator by its name.
fn fixture(name: &str) -> Vec<u8> {
    let found = fixtures().into_iter().find(|(other, _)| *other == name);
    found.expect("the generator has such a block").1
}

#[test]
fn every_kind_is_listed_a_line_an_element() {
    let folder = folder("list");
    file(&folder, "a.bin", &fixture("several groups of every kind"));
    let run = run(&folder, &["list", "a.bin"]);
    assert_eq!(
        run.out,
        r#"block 0: granularity 100, latitude offset 0, longitude offset 0, groups 4
group 0 dense node 7: position 5 5 (0.000000500 0.000000500)
group 0 dense node 8: position 6 6 (0.000000600 0.000000600)
group 1 node 1: position 9 9 (0.000000900 0.000000900), "k"="v"
group 1 way 20: "k"="v", nodes 7 8 1
group 1 way 21: "k"="v", nodes -3 9
group 2 relation 30: member node 8 "outer", member way 21 "outer", member relation 30 ""
group 2 relation 31: member type 7 5 "outer", member node 99 "outer"
"#
    );
    assert_eq!((run.status, run.err.as_str()), (0, ""));
}

#[test]
fn a_full_listing_has_the_metadata_that_there_is() {
    let folder = folder("full");
    file(&folder, "a.bin", &fixture("metadata of some dense nodes"));
    let run = run(&folder, &["list", "--full", "a.bin"]);
    assert_eq!(
        run.out,
        r#"block 0: granularity 100, latitude offset 0, longitude offset 0, groups 1, date granularity 1000
group 0 dense node 7: position 5 5 (0.000000500 0.000000500), version 3, timestamp 1500000000, changeset 40, uid 8, user_sid 1, user "k", not visible
group 0 dense node 9: position 6 -6 (0.000000600 -0.000000600), "k"="v", version 1, timestamp 1500000007, changeset 20, uid -1, user_sid 3, user "outer", visible
group 0 dense node 300: position 7 7 (0.000000700 0.000000700)
group 0 way 20: "k"="v", nodes 7 9, version 2, changeset 9, user_sid 3, user "outer", visible
"#
    );
    assert_eq!((run.status, run.err.as_str()), (0, ""));
}

#[test]
fn a_refused_block_is_one_line_on_standard_error_and_the_others_are_listed() {
    let folder = folder("list-refused");
    file(&folder, "a.osm.pbf", &pbf(&[b"", &[0x07], b""]));
    let run = run(&folder, &["list", "a.osm.pbf"]);
    let numbers: Vec<&str> = run.out.lines().map(|line| &line[..7]).collect();
    assert_eq!(numbers, ["block 0", "block 2"]);
    assert_eq!((run.status, run.err.lines().count()), (1, 1));
    assert!(
        run.err
            .starts_with("mapblock: a.osm.pbf: block 1 is refused with number 4: "),
        "{}",
        run.err
    );
}

#[test]
fn a_listing_may_be_cut_by_a_pipe() {
    let folder = folder("list-pipe");
    let block = fixture("several groups of every kind");
    file(&folder, "a.osm.pbf", &pbf(&vec![&block[..]; 2000]));
    let run = run_unread(&folder, &["list", "a.osm.pbf"]);
    assert_eq!((run.status, run.err.as_str()), (0, ""));
}

#[test]
fn a_missing_file_is_told_by_every_command() {
    let folder = folder("all-missing");
    file(&folder, "a.bin", b"");
    for arguments in [
        &["list", "no"][..],
        &["compare", "a.bin", "no"],
        &["compare", "no", "a.bin"],
        &["blocks", "no", "-o", "parts"],
    ] {
        let run = run(&folder, arguments);
        assert_eq!(
            run.err, "mapblock: no: there is no such file\n",
            "{arguments:?}"
        );
        assert_eq!((run.status, run.out.as_str()), (2, ""));
    }
}

/// A block of one string table and one group with one way.
fn one_way(value: &str, refs: &[u8], head: &[u8]) -> Vec<u8> {
    let strings = [b"", &b"k"[..], value.as_bytes()].map(|text| len_field(1, text));
    let way = [
        varint_field(1, 9),
        len_field(2, &[1]),
        len_field(3, &[2]),
        len_field(8, refs),
    ];
    let group = len_field(3, &way.concat());
    [
        &len_field(1, &strings.concat()),
        &len_field(2, &group),
        head,
    ]
    .concat()
}

#[test]
fn blocks_that_store_the_same_compare_as_the_same() {
    let folder = folder("same");
    file(&folder, "a.bin", &one_way("v", &[2, 2], b""));
    // Another date granularity, and a longer spelling of a reference.
    file(
        &folder,
        "b.bin",
        &one_way("v", &[0x82, 0, 2], &varint_field(18, 1)),
    );
    let run = run(&folder, &["compare", "a.bin", "b.bin"]);
    assert_eq!(run.out, "the same listing\n");
    assert_eq!((run.status, run.err.as_str()), (0, ""));
}

#[test]
fn the_first_difference_is_told_in_words() {
    let folder = folder("different");
    let block = one_way("v", &[2, 2], b"");
    file(&folder, "a", &block);
    for (other, words) in [
        (
            one_way("w", &[2, 2], b""),
            "block 0: element 0, group 0 way 9: tag 0 is \"k\"=\"v\" in a and \"k\"=\"w\" in b\n",
        ),
        (
            one_way("v", &[2], b""),
            "block 0: element 0, group 0 way 9: reference 1 is 2 in a and missing in b\n",
        ),
        (
            one_way("v", &[2, 2], &varint_field(17, 1000)),
            "block 0: the granularity is 100 in a and 1000 in b\n",
        ),
        (
            [block.clone(), len_field(2, &[])].concat(),
            "block 0: the number of groups is 1 in a and 2 in b\n",
        ),
        (
            len_field(2, &[]),
            "block 0: element 0 is group 0 way 9 in a and missing in b\n",
        ),
        (pbf(&[&block, b""]), "b has more blocks\n"),
    ] {
        file(&folder, "b", &other);
        let run = run(&folder, &["compare", "a", "b"]);
        assert_eq!(run.out, words);
        assert_eq!((run.status, run.err.as_str()), (1, ""));
    }
}

#[test]
fn a_block_equals_itself_in_a_map_and_no_other_block() {
    let folder = folder("pairs");
    for (name, block) in fixtures() {
        file(&folder, "a", &block);
        file(&folder, "b", &pbf(&[&block]));
        assert_eq!(run(&folder, &["compare", "a", "b"]).status, 0, "{name}");
        file(&folder, "b", &fixture("absent columns"));
        let different = name != "absent columns";
        let status = run(&folder, &["compare", "a", "b"]).status;
        assert_eq!(status, i32::from(different), "{name}");
    }
}

/// Also behind a difference.
#[test]
fn a_refused_block_makes_status_2_of_a_comparison() {
    let folder = folder("compare-refused");
    file(&folder, "a", &pbf(&[b"", b"", &[0x07]]));
    file(&folder, "b", &pbf(&[&len_field(2, &[]), &[0x07]]));
    let run = run(&folder, &["compare", "a", "b"]);
    assert_eq!((run.status, run.out.as_str()), (2, ""));
    let starts: Vec<&str> = run.err.lines().map(|line| &line[..20]).collect();
    assert_eq!(starts, ["mapblock: a: block 2", "mapblock: b: block 1"]);
}

#[test]
fn a_map_is_taken_apart_into_its_blocks() {
    let folder = folder("blocks");
    let blocks: [&[u8]; 3] = [&len_field(2, &[]), &[0x07], b""];
    file(&folder, "a.osm.pbf", &pbf(&blocks));
    let run = run(&folder, &["blocks", "a.osm.pbf", "-o", "deep/parts"]);
    assert_eq!(run.out, "3 blocks written to deep/parts\n");
    assert_eq!((run.status, run.err.as_str()), (0, ""));
    for (number, block) in blocks.iter().enumerate() {
        let path = folder.join(format!("deep/parts/block-{number:05}.bin"));
        assert_eq!(fs::read(path).expect("a block's file"), *block);
    }
}

#[test]
fn what_can_t_be_taken_apart_or_written_is_told() {
    let folder = folder("blocks-bad");
    file(&folder, "a.bin", &[0x12, 0x00]);
    file(
        &folder,
        "a.osm.pbf",
        &[blob("OSMData", &raw(b"")), vec![0]].concat(),
    );
    let one = run(&folder, &["blocks", "a.bin", "-o", "parts"]);
    assert_eq!(one.status, 2);
    assert!(one.err.contains("this is no .osm.pbf"));
    let taken = run(&folder, &["blocks", "a.osm.pbf", "-o", "a.bin"]);
    assert_eq!(taken.status, 2);
    assert!(
        taken
            .err
            .starts_with("mapblock: a.bin: the folder can't be made")
    );
    let cut = run(&folder, &["blocks", "a.osm.pbf", "-o", "parts"]);
    assert_eq!(
        (cut.status, cut.out.as_str()),
        (2, "1 block written to parts\n")
    );
}

#[test]
fn a_real_map_is_listed_whole_and_equals_its_blocks() {
    let Some(map) = real_map() else {
        println!("no map at hand; NUORPYTS_MAP names one");
        return;
    };
    let folder = folder("real");
    let map = map.to_str().expect("a path of letters");
    let listed = run(&folder, &["list", map]);
    assert_eq!((listed.status, listed.err.as_str()), (0, ""));
    assert_eq!(run(&folder, &["blocks", map, "-o", "parts"]).status, 0);
    let blocks = listed.out.lines().filter(|line| line.starts_with("block "));
    let mut together = String::new();
    for number in 0..blocks.count() {
        let name = format!("parts/block-{number:05}.bin");
        let alone = run(&folder, &["list", &name]).out;
        together.push_str(&alone.replacen("block 0", &format!("block {number}"), 1));
    }
    assert!(
        together == listed.out,
        "the blocks list otherwise than the map"
    );
    assert_eq!(
        run(&folder, &["compare", map, map]).out,
        "the same listing\n"
    );
}
