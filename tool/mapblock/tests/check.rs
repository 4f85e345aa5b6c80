//! `mapblock check` at a terminal: every number that a block can be refused
//! with, every way in which a file can be damaged, exit statuses and JSON.

mod common;

use common::{blob, file, folder, pbf, raw, run, run_unread, zlib};
use generate::encode::{len_field, varint_field};
use mapblock::words;

/// A block of one group with this content.
fn group(content: &[u8]) -> Vec<u8> {
    len_field(2, content)
}

/// A block for each number but 1, 13 and 14.
fn refused() -> Vec<(u32, Vec<u8>)> {
    let way = |content: &[u8]| group(&len_field(3, content));
    let info = len_field(4, &[0x08, 0x01]);
    vec![
        (2, vec![0x0A]),
        (3, vec![0xFF; 10]),
        (4, vec![0x07]),
        (5, vec![0x0E]),
        (6, vec![0x0A, 0x01]),
        (7, vec![0x0B; 17]),
        (8, varint_field(17, 1 << 31)),
        (9, way(&[0x42, 0x01, 0x02, 0x42, 0x01, 0x02])),
        (10, way(&[info.clone(), info].concat())),
        (11, group(&[0x12, 0x00, 0x12, 0x00])),
        (12, way(&len_field(2, &[1]))),
    ]
}

#[test]
fn each_number_is_told_with_its_meaning_its_place_and_what_to_mend() {
    let folder = folder("numbers");
    for (number, block) in refused() {
        file(&folder, "a.bin", &block);
        let run = run(&folder, &["check", "a.bin"]);
        let words = words::of(number);
        let first = format!("a.bin: refused with number {number}\n");
        assert!(run.out.starts_with(&first), "{}", run.out);
        assert!(run.out.contains(&format!("    means  {}\n", words.means)));
        assert!(run.out.contains("    where  "), "{}", run.out);
        assert!(run.out.ends_with(&format!("    mend   {}\n", words.mend)));
        assert_eq!((run.status, run.err.as_str()), (1, ""));
    }
}

#[test]
fn a_block_of_more_than_32_mib_is_told_by_number_1() {
    let folder = folder("too-long");
    file(&folder, "long.bin", &vec![0x0A; proved::BLOCK_LIMIT + 1]);
    let run = run(&folder, &["check", "long.bin"]);
    assert!(run.out.starts_with("long.bin: refused with number 1\n"));
    assert!(run.out.contains("certain at byte 33554432\n"));
    assert_eq!(run.status, 1);
}

#[test]
fn a_refused_block_of_a_map_is_told_with_its_place() {
    let folder = folder("map");
    let bad = group(&len_field(3, &[0x08, 0x07, 0x42, 0x01, 0x80]));
    file(&folder, "a.osm.pbf", &pbf(&[&group(&[]), &bad, &[]]));
    let run = run(&folder, &["check", "a.osm.pbf"]);
    assert_eq!(
        run.out,
        "a.osm.pbf: block 1, whose blob is at byte 38 of the file, is refused with number 2\n\
         \x20   means  the bytes end in the middle of a number, or where one is due\n\
         \x20   where  group 0, way 0 (id 7), its column refs: bytes 8 to 8 of the block, certain at byte 8\n\
         \x20   mend   write the block to its end, and make each length count all bytes of what it stands for\n\
         a.osm.pbf: 3 blocks, 2 accepted, 1 refused\n"
    );
    assert_eq!((run.status, run.err.as_str()), (1, ""));
}

#[test]
fn what_is_accepted_ends_with_status_0() {
    let folder = folder("accepted");
    file(&folder, "empty.bin", b"");
    file(&folder, "a.bin", &group(&[]));
    file(&folder, "a.osm.pbf", &pbf(&[&group(&[]), b""]));
    file(&folder, "none.osm.pbf", &pbf(&[]));
    let run = run(
        &folder,
        &["check", "empty.bin", "a.bin", "a.osm.pbf", "none.osm.pbf"],
    );
    assert_eq!(
        run.out,
        "empty.bin: accepted\na.bin: accepted\n\
         a.osm.pbf: 2 blocks, all accepted\nnone.osm.pbf: no blocks\n"
    );
    assert_eq!((run.status, run.err.as_str()), (0, ""));
}

#[test]
fn a_missing_file_is_one_line_and_status_2_and_the_others_are_checked() {
    let folder = folder("missing");
    file(&folder, "a.bin", b"");
    let run = run(&folder, &["check", "nowhere.bin", "a.bin", "."]);
    assert_eq!(run.out, "a.bin: accepted\n");
    assert_eq!(
        run.err,
        "mapblock: nowhere.bin: there is no such file\nmapblock: .: is a directory, not a file\n"
    );
    assert_eq!(run.status, 2);
}

/// Damaged maps, each with words of the line that tells it.
fn damaged() -> Vec<(Vec<u8>, &'static str)> {
    let good = pbf(&[&group(&[])]);
    let data = |content: &[u8]| blob("OSMData", content);
    let compressed = |field| data(&len_field(field, b"data"));
    let mut bad_zlib = zlib(&[7; 100]);
    let last = bad_zlib.len() - 1;
    bad_zlib[last] ^= 1;
    let other_size = [varint_field(2, 5), zlib(b"")[2..].to_vec()].concat();
    let bomb = len_field(3, &common::deflated(&vec![0; proved::BLOCK_LIMIT + 1]));
    let no_size = len_field(1, b"OSMData");
    let too_large = [no_size.clone(), varint_field(3, 1 << 26)].concat();
    let headed = |header: &[u8]| [&(header.len() as u32).to_be_bytes(), header].concat();
    vec![
        (good[..2].to_vec(), "the file ends inside the length"),
        (good[..9].to_vec(), "the file ends inside its header"),
        (good[..good.len() - 1].to_vec(), "the file ends inside it"),
        (vec![0, 1, 0, 1, 0], "its header has a length of 65537"),
        (headed(&[0x08]), "its header can't be read: a number is cut"),
        (headed(&varint_field(3, 0)), "its header names no type"),
        (headed(&no_size), "its header names no size"),
        (headed(&too_large), "its header names a size of 67108864"),
        (data(&[0x0A, 0x05]), "it can't be read: a length passes"),
        (data(&[]), "it has neither raw nor zlib data"),
        (data(&bad_zlib), "its zlib data are damaged"),
        (data(&len_field(3, &zlib(b"")[..3])), "its zlib data are"),
        (data(&other_size), "it names 5 bytes, and its zlib data"),
        (data(&bomb), "inflate past 33554432 bytes"),
        (compressed(4), "it is compressed by lzma"),
        (compressed(6), "it is compressed by lz4"),
        (compressed(7), "it is compressed by zstd"),
    ]
}

#[test]
fn a_damaged_map_is_one_line_and_status_2() {
    let folder = folder("damaged");
    for (bytes, words) in damaged() {
        file(&folder, "a.osm.pbf", &bytes);
        let run = run(&folder, &["check", "a.osm.pbf"]);
        let start = "mapblock: a.osm.pbf: the blob at byte ";
        assert!(run.err.starts_with(start), "{words}: {}", run.err);
        assert!(run.err.contains(words), "{words}: {}", run.err);
        assert_eq!((run.status, run.err.lines().count()), (2, 1), "{words}");
    }
}

#[test]
fn behind_a_damaged_blob_the_others_are_checked() {
    let folder = folder("behind");
    let file_bytes = [
        blob("OSMData", &[]),
        blob("Unknown", &[0xFF]),
        blob("OSMData", &raw(&[0x07])),
        blob("OSMData", &zlib(b"")),
    ];
    file(&folder, "a.osm.pbf", &file_bytes.concat());
    let run = run(&folder, &["check", "a.osm.pbf"]);
    assert!(
        run.out
            .contains("a.osm.pbf: block 0, whose blob is at byte ")
    );
    assert!(run.out.ends_with("2 blocks, 1 accepted, 1 refused\n"));
    assert_eq!((run.status, run.err.lines().count()), (2, 1));
}

#[test]
fn every_cut_of_a_map_is_told_and_none_crashes() {
    let folder = folder("cuts");
    let whole = pbf(&[&group(&[]), &group(&[])]);
    for len in 1..whole.len() {
        file(&folder, "a.osm.pbf", &whole[..len]);
        let run = run(&folder, &["check", "a.osm.pbf"]);
        // A cut between two blobs leaves a map.
        let told = run.status == 2 && run.err.lines().count() == 1;
        assert!(
            told || (run.status == 0 && run.err.is_empty()),
            "{len}: {run:?}"
        );
    }
}

#[test]
fn other_formats_are_called_by_their_name() {
    let folder = folder("formats");
    for (bytes, name) in [
        (&b"<?xml version='1.0'?><osm/>"[..], "XML"),
        (&[0x1F, 0x8B, 0x08, 0x00], "gzip data"),
    ] {
        file(&folder, "a", bytes);
        let run = run(&folder, &["check", "a"]);
        assert_eq!(run.status, 2);
        assert_eq!(run.err, format!("mapblock: a: this is {name}, no PBF\n"));
    }
}

#[test]
fn json_has_the_same_for_scripts() {
    let folder = folder("json");
    let bad = group(&len_field(3, &[0x08, 0x07, 0x42, 0x01, 0x80]));
    file(&folder, "a.osm.pbf", &pbf(&[&bad, b""]));
    let run = run(&folder, &["check", "--json", "a.osm.pbf", "nowhere\"s"]);
    let words = words::of(2);
    assert_eq!(
        run.out,
        format!(
            "{{\"files\":[{{\"file\":\"a.osm.pbf\",\"kind\":\"osm.pbf\",\"blocks\":2,\"accepted\":1,\
             \"refused\":[{{\"block\":0,\"blob_at\":19,\"number\":2,\"means\":\"{}\",\"mend\":\"{}\",\
             \"place\":{{\"group\":0,\"kind\":\"way\",\"element\":0,\"id\":7,\
             \"what\":\"its column refs\",\"start\":8,\"end\":9,\"byte\":8}}}}],\"damaged\":[]}},\
             {{\"file\":\"nowhere\\\"s\",\"error\":\"there is no such file\"}}],\"status\":2}}\n",
            words.means, words.mend
        )
    );
    assert_eq!((run.status, run.err.as_str()), (2, ""));
}

#[test]
fn a_closed_pipe_ends_the_run_without_a_word() {
    let folder = folder("pipe");
    file(&folder, "a.bin", b"");
    let mut arguments = vec!["a.bin"; 10_000];
    arguments[0] = "check";
    let run = run_unread(&folder, &arguments);
    assert_eq!((run.status, run.err.as_str()), (0, ""));
}

#[test]
fn help_teaches_by_examples() {
    let folder = folder("help");
    let help = run(&folder, &["--help"]);
    assert!(
        help.out.contains("mapblock check map.osm.pbf"),
        "{}",
        help.out
    );
    assert!(help.out.contains("Its first byte tells which"));
    assert_eq!(help.status, 0);
    let none = run(&folder, &[]);
    assert_eq!(none.status, 2);
    assert!(none.err.contains("mapblock check map.osm.pbf"));
}

#[test]
fn what_is_not_understood_is_one_line() {
    let folder = folder("misused");
    for (arguments, words) in [
        (&["chek"][..], "Did you mean 'check'?"),
        (&["check"], "<FILE>..."),
        (&["draw", "a"], "--output <map.svg>"),
        (&["list", "--ful", "a"], "Did you mean '--full'?"),
    ] {
        let run = run(&folder, arguments);
        assert_eq!((run.status, run.out.as_str()), (2, ""));
        assert_eq!(run.err.lines().count(), 1, "{}", run.err);
        assert!(run.err.starts_with("mapblock: "), "{}", run.err);
        assert!(run.err.contains(words), "{}", run.err);
    }
}
