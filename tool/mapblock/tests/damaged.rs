//! No command crashes, whatever it is handed: maps of a few thousand blocks
//! of every family that the judge's generator makes, and damaged maps.

mod common;

use common::reserve::reserve;
use common::{file, folder, pbf, run};
use generate::{Prng, damage};

const SEED: u64 = 11;

/// The arguments of every command that reads a file.
fn commands(name: &str) -> [Vec<&str>; 7] {
    [
        vec!["check", name],
        vec!["check", "--json", name],
        vec!["list", "--full", name],
        vec!["compare", name, name],
        vec!["draw", name, "-o", "a.svg"],
        vec!["report", name, "-o", "a.html"],
        vec!["blocks", name, "-o", "parts"],
    ]
}

#[test]
fn blocks_of_every_family_are_no_trouble_to_any_command() {
    let folder = folder("families");
    let mut blocks = Vec::new();
    generate::for_each_structured(SEED, 2000, &mut |_, block| blocks.push(block.to_vec()));
    let blocks: Vec<&[u8]> = blocks.iter().map(Vec::as_slice).collect();
    file(&folder, "a.osm.pbf", &pbf(&blocks));
    for arguments in commands("a.osm.pbf") {
        let run = run(&folder, &arguments);
        let expected = match arguments[0] {
            "blocks" => 0,
            "compare" => 2,
            _ => 1,
        };
        assert_eq!(run.status, expected, "{arguments:?}: {}", run.err);
    }
}

#[test]
fn damaged_maps_are_no_trouble_to_any_command() {
    let folder = folder("damaged-maps");
    let block = reserve();
    let good = pbf(&[&block, &block, &block]);
    let mut rng = Prng::for_item(SEED, 0);
    for _ in 0..100 {
        file(&folder, "a.osm.pbf", &damage(&mut rng, &good));
        for arguments in commands("a.osm.pbf") {
            let run = run(&folder, &arguments);
            assert!((0..=2).contains(&run.status), "{arguments:?}: {}", run.err);
            let told = run.status == 0 || arguments[0] == "compare" || !run.err.is_empty();
            let told = told || !run.out.is_empty();
            assert!(told, "{arguments:?} says nothing");
        }
    }
}
