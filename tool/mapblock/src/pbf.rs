//! The blobs of an .osm.pbf: a run of a length in 4 bytes, the highest first,
//! a BlobHeader of that length, and a Blob of the size that the header names.
//! A blob of type OSMData holds one block, raw or as zlib data; the others
//! are passed over.

use std::io::{self, Read};

use crate::fields::{Value, fields};
use crate::inflate::inflate;

/// The longest BlobHeader and the longest Blob that the format allows.
const LONGEST_HEADER: u64 = 1 << 16;
const LONGEST_BLOB: u64 = 1 << 25;

/// What makes a file, or one blob of it, unreadable.
#[derive(Debug)]
pub struct Damage {
    /// Where in the file the blob begins; none where the file has no blobs.
    pub at: Option<u64>,
    pub what: String,
}

/// Why a blob's content can't be had.
enum Unread {
    /// The next one may be all right.
    Blob(String),
    /// The others will be the same.
    File(String),
}

impl Unread {
    fn what(self) -> String {
        match self {
            Unread::Blob(what) | Unread::File(what) => what,
        }
    }
}

impl From<String> for Unread {
    fn from(what: String) -> Unread {
        Unread::Blob(what)
    }
}

/// The blobs of a file, from where it is read on.
pub struct Blobs<R> {
    file: R,
    at: u64,
    ended: bool,
}

/// What the header of a blob says.
struct Header {
    is_data: bool,
    size: u64,
}

impl<R: Read> Blobs<R> {
    pub fn new(file: R) -> Blobs<R> {
        Blobs {
            file,
            at: 0,
            ended: false,
        }
    }

    /// How much of the file has been read.
    pub fn bytes_read(&self) -> u64 {
        self.at
    }

    /// The place of the next blob that holds a block, and the block; none at
    /// the file's end. Damage inside a blob leaves the next one readable.
    pub fn next_block(&mut self) -> Option<Result<(u64, Vec<u8>), Damage>> {
        while !self.ended {
            let at = self.at;
            let content = match self.next_blob() {
                Ok(None) => {
                    self.ended = true;
                    continue;
                }
                Ok(Some((header, _))) if !header.is_data => continue,
                Ok(Some((_, blob))) => content(&blob),
                Err(what) => Err(Unread::File(what)),
            };
            self.ended = matches!(content, Err(Unread::File(_)));
            let content = content.map(|block| (at, block));
            return Some(content.map_err(|unread| Damage {
                at: Some(at),
                what: unread.what(),
            }));
        }
        None
    }

    fn next_blob(&mut self) -> Result<Option<(Header, Vec<u8>)>, String> {
        let length = self.take(4)?;
        if length.is_empty() {
            return Ok(None);
        }
        let length: [u8; 4] = whole(length, "the length of its header")?;
        let length = u64::from(u32::from_be_bytes(length));
        if length > LONGEST_HEADER {
            return Err(format!(
                "its header has a length of {length} bytes, and {LONGEST_HEADER} is the most"
            ));
        }
        let bytes = self.take(length)?;
        if bytes.len() as u64 != length {
            return Err("the file ends inside its header".to_string());
        }
        let header = header(&bytes)?;
        let blob = self.take(header.size)?;
        if blob.len() as u64 != header.size {
            return Err(format!(
                "the file ends inside it: {} of its {} bytes are there",
                blob.len(),
                header.size
            ));
        }
        Ok(Some((header, blob)))
    }

    /// As many bytes, or fewer where the file ends.
    fn take(&mut self, len: u64) -> Result<Vec<u8>, String> {
        let mut bytes = Vec::new();
        let read = self.file.by_ref().take(len).read_to_end(&mut bytes);
        self.at += bytes.len() as u64;
        read.map_err(|how: io::Error| format!("the file can't be read: {how}"))?;
        Ok(bytes)
    }
}

fn whole<const N: usize>(bytes: Vec<u8>, what: &str) -> Result<[u8; N], String> {
    bytes
        .try_into()
        .map_err(|_| format!("the file ends inside {what}"))
}

/// BlobHeader: 1 type, 3 datasize.
fn header(bytes: &[u8]) -> Result<Header, String> {
    let fields = fields(bytes).map_err(|how| format!("its header can't be read: {how}"))?;
    let (mut name, mut size) = (None, None);
    for (number, value) in fields {
        match (number, value) {
            (1, Value::Bytes(bytes)) => name = Some(bytes),
            (3, Value::Number(number)) => size = Some(number),
            _ => {}
        }
    }
    let name = name.ok_or("its header names no type")?;
    let size = size.ok_or("its header names no size")?;
    if size > LONGEST_BLOB {
        return Err(format!(
            "its header names a size of {size} bytes, and {LONGEST_BLOB} is the most"
        ));
    }
    Ok(Header {
        is_data: name == b"OSMData",
        size,
    })
}

/// Blob: 1 raw, 2 raw_size, 3 zlib_data, and other compressions.
fn content(blob: &[u8]) -> Result<Vec<u8>, Unread> {
    let mut size = None;
    let mut data = None;
    for (number, value) in fields(blob).map_err(|how| format!("it can't be read: {how}"))? {
        match (number, value) {
            (2, Value::Number(number)) => size = Some(number),
            (number, Value::Bytes(bytes)) => data = Some((number, bytes)),
            _ => {}
        }
    }
    let content = match data {
        Some((1, raw)) => return Ok(raw.to_vec()),
        Some((3, zlib)) => inflate(zlib, proved::BLOCK_LIMIT)?,
        Some((4, _)) => return Err(unread("lzma")),
        Some((5, _)) => return Err(unread("bzip2")),
        Some((6, _)) => return Err(unread("lz4")),
        Some((7, _)) => return Err(unread("zstd")),
        _ => return Err(Unread::Blob("it has neither raw nor zlib data".to_string())),
    };
    match size {
        Some(size) if size != content.len() as u64 => Err(Unread::Blob(format!(
            "it names {size} bytes, and its zlib data inflate to {}",
            content.len()
        ))),
        _ => Ok(content),
    }
}

/// A writer compresses all blobs in one way.
fn unread(compression: &str) -> Unread {
    Unread::File(format!(
        "it is compressed by {compression}; raw and zlib data are read \
         (osmium cat -f pbf,pbf_compression=zlib writes those)"
    ))
}
