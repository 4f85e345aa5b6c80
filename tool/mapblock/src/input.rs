//! A file as a run of blocks, whether it is a whole .osm.pbf or one block.
//!
//! The first byte tells them apart. An .osm.pbf begins with the top byte of a
//! length below 65,537, which is 00. A block begins with a tag, and 00 is the
//! tag of field 0, which no accepted block has.

use std::fs::File;
use std::io::{self, BufRead, BufReader, Read};
use std::path::Path;

use crate::pbf::{Blobs, Damage};
use crate::progress::Progress;

/// One block of a file.
pub struct FileBlock {
    /// Its number in the file, from 0 on; blobs without a block do not count.
    pub number: usize,
    /// Where its blob begins in the file.
    pub at: u64,
    pub bytes: Vec<u8>,
}

/// The blocks of a file, one after the other.
pub struct Blocks {
    content: Content,
    number: usize,
    file_len: u64,
    progress: Progress,
}

enum Content {
    /// The whole file is one block, not yet read.
    Block(BufReader<File>),
    Pbf(Blobs<BufReader<File>>),
    Ended,
}

impl Blocks {
    /// Opens a file, or says in words why it can't be read.
    pub fn open(path: &Path) -> Result<Blocks, String> {
        let why = |how: io::Error| reason(&how);
        let file = File::open(path).map_err(why)?;
        let about = file.metadata().map_err(why)?;
        if about.is_dir() {
            return Err("is a directory, not a file".to_string());
        }
        let mut file = BufReader::new(file);
        let is_pbf = file.fill_buf().map_err(why)?.first() == Some(&0);
        Ok(Blocks {
            content: if is_pbf {
                Content::Pbf(Blobs::new(file))
            } else {
                Content::Block(file)
            },
            number: 0,
            file_len: about.len(),
            progress: Progress::hidden(),
        })
    }

    /// Shows how far the reading is; not for commands that print as they read.
    pub fn with_progress(mut self) -> Blocks {
        self.progress = Progress::of(self.file_len);
        self
    }

    /// Whether the file is a whole .osm.pbf.
    pub fn is_pbf(&self) -> bool {
        matches!(self.content, Content::Pbf(_))
    }
}

impl Iterator for Blocks {
    type Item = Result<FileBlock, Damage>;

    fn next(&mut self) -> Option<Self::Item> {
        let found = match &mut self.content {
            Content::Pbf(blobs) => {
                let found = blobs.next_block();
                self.progress.reached(blobs.bytes_read());
                found
            }
            Content::Block(file) => {
                let found = one_block(file);
                self.content = Content::Ended;
                Some(found)
            }
            Content::Ended => None,
        };
        let Some(found) = found else {
            self.progress.done();
            return None;
        };
        Some(found.map(|(at, bytes)| {
            let number = self.number;
            self.number += 1;
            FileBlock { number, at, bytes }
        }))
    }
}

/// The whole file, but no more than tells that it is too long.
fn one_block(file: &mut BufReader<File>) -> Result<(u64, Vec<u8>), Damage> {
    let mut bytes = Vec::new();
    let most = proved::BLOCK_LIMIT as u64 + 1;
    match file.take(most).read_to_end(&mut bytes) {
        Ok(_) => Ok((0, bytes)),
        Err(how) => Err(Damage {
            at: None,
            what: format!("it can't be read: {}", reason(&how)),
        }),
    }
}

/// Why the system refuses a file, for people.
fn reason(how: &io::Error) -> String {
    match how.kind() {
        io::ErrorKind::NotFound => "there is no such file".to_string(),
        io::ErrorKind::PermissionDenied => "it may not be read: permission denied".to_string(),
        _ => how.to_string(),
    }
}
