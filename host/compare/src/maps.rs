//! Real maps: each .osm.pbf file of a folder, with the .opl file beside it
//! that osmium printed of it. Its blocks go through the whole comparison, every
//! side accepts them, and its plain listing equals the OPL lines, element by
//! element.

use std::path::{Path, PathBuf};
use std::{fs, io};

use generate::primitive_blocks;

use crate::by_c;
use crate::by_published;
use crate::by_reader;
use crate::judge::Judge;
use crate::opl;
use crate::question::Ask;

/// All maps of the folder, by name; their blocks come back for the sweep.
pub fn judge(folder: &Path, judge: &mut Judge) -> Result<Vec<Vec<u8>>, String> {
    let mut all = Vec::new();
    for path in maps(folder).map_err(|e| format!("{}: {e}", folder.display()))? {
        let name = path
            .file_name()
            .unwrap_or_default()
            .to_string_lossy()
            .to_string();
        let file = fs::read(&path).map_err(|e| format!("{name}: {e}"))?;
        let lines = fs::read_to_string(opl_of(&path)).map_err(|e| format!("{name}: {e}"))?;
        let blocks = primitive_blocks(&file).map_err(|e| format!("{name}: {e}"))?;
        let elements = listing_is_opl(&name, &blocks, &lines, judge);
        blocks.iter().for_each(|block| judge.block(block));
        let accepted = accepted_by_all(&name, &blocks, judge);
        println!(
            "map {name}: {} blocks, {accepted} accepted {}, {elements} elements as osmium prints them",
            blocks.len(),
            sides(),
        );
        all.extend(blocks);
    }
    Ok(all)
}

fn maps(folder: &Path) -> io::Result<Vec<PathBuf>> {
    let mut found = Vec::new();
    for entry in fs::read_dir(folder)? {
        let path = entry?.path();
        if path.to_string_lossy().ends_with(".osm.pbf") {
            found.push(path);
        }
    }
    found.sort();
    Ok(found)
}

fn opl_of(path: &Path) -> PathBuf {
    PathBuf::from(path.to_string_lossy().replace(".osm.pbf", ".opl"))
}

/// The sides that have to accept the blocks of a map: those at hand.
fn sides() -> String {
    let mut sides = vec!["by the reader"];
    if by_published::COMMIT.is_some() {
        sides.push("by the published Rust");
    }
    if by_c::ARCHIVE.is_some() {
        sides.push("through C");
    }
    sides.join(", ")
}

/// How many blocks every side accepts; each other one counts as a difference.
fn accepted_by_all(name: &str, blocks: &[Vec<u8>], judge: &mut Judge) -> usize {
    let refused: Vec<&Vec<u8>> = blocks.iter().filter(|block| !is_accepted(block)).collect();
    for block in &refused {
        let how = " is not accepted by all sides";
        judge.tally.broken(name, block, how);
    }
    blocks.len() - refused.len()
}

/// The published Rust has two verdicts: its own, and its parsers in the order
/// of the check.
fn is_accepted(block: &[u8]) -> bool {
    by_reader::verdict(block) == 0
        && by_published::composed_check(block).is_none_or(|verdict| verdict == "0")
        && by_published::validate_groups(block).is_none_or(|verdict| verdict.is_ok())
        && by_c::answer(Ask::Check, block).is_none_or(|verdict| verdict == "0")
}

/// How many elements are equal; each that is not counts as a difference.
fn listing_is_opl(name: &str, blocks: &[Vec<u8>], lines: &str, judge: &mut Judge) -> u64 {
    let mut lines = lines.lines();
    let mut equal = 0;
    for block in blocks {
        let Ok(listing) = reader::listing(block) else {
            judge.tally.broken("a block of a map is refused", &[], name);
            continue;
        };
        for element in &listing.elements {
            let line = lines.next().unwrap_or("");
            let ours = opl::of_listed(&listing, element);
            if opl::of_line(line).as_ref() == Some(&ours) {
                equal += 1;
            } else {
                judge.tally.broken(
                    name,
                    &[],
                    &format!(": osmium prints {line}, listed {ours:?}"),
                );
            }
        }
    }
    for line in lines {
        judge.tally.broken(
            name,
            &[],
            &format!(": osmium prints {line}, nothing is listed"),
        );
    }
    equal
}
