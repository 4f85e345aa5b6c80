//! `mapblock blocks`: the blocks of an .osm.pbf as files of their own, raw, as
//! they stand in it, whether a camera accepts them or not.

use std::fs;
use std::io::{self, Write};
use std::path::{Path, PathBuf};

use crate::input::{Blocks, FileBlock};
use crate::output::{Status, complain, complain_of, opened};
use crate::text::counted;

pub fn run(path: &Path, folder: &Path, out: &mut dyn Write) -> io::Result<Status> {
    let Some(blocks) = opened(path, Blocks::open(path)) else {
        return Ok(Status::Unread);
    };
    if !blocks.is_pbf() {
        complain(path, "this is no .osm.pbf; one block needs no taking apart");
        return Ok(Status::Unread);
    }
    if let Err(how) = fs::create_dir_all(folder) {
        complain(folder, format!("the folder can't be made: {how}"));
        return Ok(Status::Unread);
    }
    let (mut faults, mut written) = (Vec::new(), 0);
    for block in blocks.with_progress() {
        match block {
            Ok(block) => {
                if let Err((path, how)) = write(folder, &block) {
                    complain(&path, format!("it can't be written: {how}"));
                    return Ok(Status::Unread);
                }
                written += 1;
            }
            Err(damage) => faults.push((Status::Unread, damage.to_string())),
        }
    }
    let written = counted(written, "block");
    writeln!(out, "{written} written to {}", folder.display())?;
    Ok(complain_of(path, faults))
}

/// `block-00017.bin`, so that names sort as the blocks stand in the file.
fn write(folder: &Path, block: &FileBlock) -> Result<(), (PathBuf, io::Error)> {
    let path = folder.join(format!("block-{:05}.bin", block.number));
    fs::write(&path, &block.bytes).map_err(|how| (path, how))
}
