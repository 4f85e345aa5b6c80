//! The PrimitiveBlocks of an .osm.pbf file: a row of lengths, BlobHeaders and
//! Blobs, of which those of type OSMData hold the blocks, raw or as zlib data.

use crate::inflate::inflate_zlib;

type Outcome<T> = Result<T, &'static str>;

/// The content of every OSMData blob, in file order.
pub fn primitive_blocks(file: &[u8]) -> Outcome<Vec<Vec<u8>>> {
    let mut blocks = Vec::new();
    let mut rest = file;
    while !rest.is_empty() {
        let (length, behind) = rest.split_at_checked(4).ok_or("header length is cut")?;
        let length = length.iter().fold(0, |n, &byte| n << 8 | usize::from(byte));
        let (header, behind) = behind.split_at_checked(length).ok_or("header is cut")?;
        let header = fields(header)?;
        let size = header
            .iter()
            .find(|f| f.number == 3)
            .ok_or("header has no size")?
            .value;
        let (blob, behind) = behind
            .split_at_checked(size as usize)
            .ok_or("blob is cut")?;
        if header
            .iter()
            .any(|f| f.number == 1 && f.bytes == b"OSMData")
        {
            blocks.push(blob_content(blob)?);
        }
        rest = behind;
    }
    Ok(blocks)
}

/// The content of a Blob: field 1 is raw, field 3 zlib data.
fn blob_content(blob: &[u8]) -> Outcome<Vec<u8>> {
    for field in fields(blob)? {
        match field.number {
            1 => return Ok(field.bytes.to_vec()),
            3 => return inflate_zlib(field.bytes),
            _ => {}
        }
    }
    Err("blob has neither raw nor zlib data")
}

/// A field of the two small messages around a block.
struct Field<'a> {
    number: u64,
    value: u64,
    bytes: &'a [u8],
}

/// All fields; the two messages have varints and byte strings alone.
fn fields(mut message: &[u8]) -> Outcome<Vec<Field<'_>>> {
    let mut found = Vec::new();
    while !message.is_empty() {
        let tag = take_varint(&mut message)?;
        let value = take_varint(&mut message)?;
        let mut bytes: &[u8] = &[];
        match tag & 7 {
            0 => {}
            2 => {
                let parts = message.split_at_checked(value as usize);
                (bytes, message) = parts.ok_or("field is cut")?;
            }
            _ => return Err("unexpected wire type"),
        }
        found.push(Field {
            number: tag >> 3,
            value,
            bytes,
        });
    }
    Ok(found)
}

fn take_varint(bytes: &mut &[u8]) -> Outcome<u64> {
    let mut value = 0;
    for shift in (0..64).step_by(7) {
        let (&byte, rest) = bytes.split_first().ok_or("varint is cut")?;
        *bytes = rest;
        value |= u64::from(byte & 0x7F) << shift;
        if byte < 0x80 {
            return Ok(value);
        }
    }
    Err("varint is too long")
}
