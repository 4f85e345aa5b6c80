//! `mapblock draw` at a terminal. Its pictures were looked at once, and are
//! held by their text since.

mod common;

use std::fs;

use common::reserve::reserve;
use common::{file, folder, pbf, real_map, run};

/// The picture of the made reserve as it was looked at.
const RESERVE: &str = include_str!("pictures/reserve.svg");

#[test]
fn the_reserve_is_drawn_as_it_was_looked_at() {
    let folder = folder("draw");
    file(&folder, "reserve.bin", &reserve());
    let run = run(&folder, &["draw", "reserve.bin", "-o", "reserve.svg"]);
    assert_eq!(run.out, "reserve.svg: drawn\n");
    assert_eq!((run.status, run.err.as_str()), (0, ""));
    let path = folder.join("reserve.svg");
    let drawn = fs::read_to_string(&path).expect("the picture");
    assert!(
        drawn == RESERVE,
        "{} is not the picture that was looked at: look at it, and if it is right put it into tests/pictures",
        path.display()
    );
}

/// The texts of a picture's elements of one class.
fn texts<'a>(picture: &'a str, class: &str) -> Vec<&'a str> {
    let start = format!("<text class=\"label {class}\"");
    let lines = picture.lines().filter(|line| line.starts_with(&start));
    let texts = lines.filter_map(|line| line.strip_suffix("</text>")?.rsplit('>').next());
    texts.collect()
}

#[test]
fn a_real_map_is_drawn_as_it_was_looked_at() {
    let Some(map) = real_map() else {
        println!("no map at hand; NUORPYTS_MAP names one");
        return;
    };
    let folder = folder("draw-real");
    let map = map.to_str().expect("a path of letters");
    assert_eq!(run(&folder, &["draw", map, "-o", "map.svg"]).status, 0);
    let picture = fs::read_to_string(folder.join("map.svg")).expect("the picture");
    if !map.ends_with("liechtenstein.osm.pbf") {
        return;
    }
    assert_eq!(texts(&picture, "town"), ["Vaduz"]);
    assert_eq!(texts(&picture, "village").len(), 12);
    assert!(texts(&picture, "peak").contains(&"Drei Schwestern"));
    assert!(texts(&picture, "on-water").contains(&"Samina"));
    assert!(texts(&picture, "on-line").contains(&"Malbunstrasse"));
    let drawn = |class: &str| {
        picture
            .matches(&format!("<path class=\"shape {class}\""))
            .count()
    };
    let counts = ["water", "stream", "fence", "road", "path"].map(drawn);
    // One of each is in the legend.
    assert_eq!(counts, [29, 74, 6, 1585, 1167]);
    assert!(picture.contains(">2 km</text>"));
}

#[test]
fn a_map_without_paths_says_so() {
    let folder = folder("draw-empty");
    file(&folder, "empty.bin", b"");
    assert_eq!(
        run(&folder, &["draw", "empty.bin", "-o", "a.svg"]).status,
        0
    );
    let picture = fs::read_to_string(folder.join("a.svg")).expect("the picture");
    assert!(picture.contains("no paths, fences or waters to draw"));
}

#[test]
fn refused_blocks_are_told_and_the_others_drawn() {
    let folder = folder("draw-refused");
    file(&folder, "a.osm.pbf", &pbf(&[&reserve(), &[0x07]]));
    let run = run(&folder, &["draw", "a.osm.pbf", "-o", "a.svg"]);
    assert_eq!((run.status, run.err.lines().count()), (1, 1));
    let picture = fs::read_to_string(folder.join("a.svg")).expect("the picture");
    assert!(picture.contains(">Ridge Path</text>"));
}

#[test]
fn a_picture_that_can_t_be_written_is_told() {
    let folder = folder("draw-unwritten");
    file(&folder, "a.bin", b"");
    let run = run(&folder, &["draw", "a.bin", "-o", "no/where.svg"]);
    assert_eq!((run.status, run.out.as_str()), (2, ""));
    assert!(
        run.err
            .starts_with("mapblock: no/where.svg: it can't be written: ")
    );
}
