//! The built tool, run as a person would, and files to run it on.
#![allow(dead_code, reason = "each test file takes what it needs")]

pub mod reserve;

use std::fs;
use std::io::Write;
use std::path::{Path, PathBuf};
use std::process::{Command, Output, Stdio};

use flate2::Compression;
use flate2::write::ZlibEncoder;
use generate::encode::{len_field, varint_field};

/// A folder of a test's own, empty at its start.
pub fn folder(name: &str) -> PathBuf {
    let folder = Path::new(env!("CARGO_TARGET_TMPDIR")).join(name);
    let _ = fs::remove_dir_all(&folder);
    fs::create_dir_all(&folder).expect("a folder for the test");
    folder
}

/// A file of these bytes.
pub fn file(folder: &Path, name: &str, bytes: &[u8]) -> PathBuf {
    let path = folder.join(name);
    fs::write(&path, bytes).expect("a file for the test");
    path
}

pub fn mapblock() -> Command {
    Command::new(env!("CARGO_BIN_EXE_mapblock"))
}

/// What came of a run.
#[derive(Debug)]
pub struct Run {
    pub status: i32,
    pub out: String,
    pub err: String,
}

/// Runs the tool in a folder, so that files have short names.
pub fn run(folder: &Path, arguments: &[&str]) -> Run {
    ran(mapblock()
        .current_dir(folder)
        .args(arguments)
        .output()
        .expect("the tool runs"))
}

/// The same where whoever reads the output goes away before it comes.
pub fn run_unread(folder: &Path, arguments: &[&str]) -> Run {
    let mut child = mapblock()
        .current_dir(folder)
        .args(arguments)
        .stdout(Stdio::piped())
        .stderr(Stdio::piped())
        .spawn()
        .expect("the tool starts");
    drop(child.stdout.take());
    ran(child.wait_with_output().expect("the tool ends"))
}

pub fn ran(output: Output) -> Run {
    Run {
        status: output.status.code().expect("the tool is not killed"),
        out: String::from_utf8(output.stdout).expect("the tool prints UTF-8"),
        err: String::from_utf8(output.stderr).expect("the tool prints UTF-8"),
    }
}

/// A blob with its header: `kind` is OSMHeader or OSMData.
pub fn blob(kind: &str, blob: &[u8]) -> Vec<u8> {
    let header = [
        len_field(1, kind.as_bytes()),
        varint_field(3, blob.len() as u64),
    ]
    .concat();
    [&(header.len() as u32).to_be_bytes(), &header[..], blob].concat()
}

pub fn raw(block: &[u8]) -> Vec<u8> {
    len_field(1, block)
}

pub fn deflated(bytes: &[u8]) -> Vec<u8> {
    let mut encoder = ZlibEncoder::new(Vec::new(), Compression::fast());
    encoder.write_all(bytes).expect("memory takes all");
    encoder.finish().expect("memory takes all")
}

pub fn zlib(block: &[u8]) -> Vec<u8> {
    let size = varint_field(2, block.len() as u64);
    [size, len_field(3, &deflated(block))].concat()
}

/// An .osm.pbf of these blocks, in turn raw and as zlib data.
pub fn pbf(blocks: &[&[u8]]) -> Vec<u8> {
    let mut file = blob("OSMHeader", &raw(b""));
    for (number, block) in blocks.iter().enumerate() {
        let content = if number % 2 == 0 {
            raw(block)
        } else {
            zlib(block)
        };
        file.extend(blob("OSMData", &content));
    }
    file
}

/// The judge's map, where it is at hand.
pub fn real_map() -> Option<PathBuf> {
    let beside =
        Path::new(env!("CARGO_MANIFEST_DIR")).join("../../../shared/data/liechtenstein.osm.pbf");
    let path = std::env::var_os("NUORPYTS_MAP").map_or(beside, PathBuf::from);
    path.is_file().then_some(path)
}
