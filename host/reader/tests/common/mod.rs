//! Small encoders and shortcuts that the tests share.
#![allow(dead_code)] // each test file is a crate of its own and uses a part

use reader::{check, scan, start, step, Answer, Element, Mode, Record, Refusal};

/// A length-delimited field with a short tag and a short length.
pub fn field(number: u8, payload: &[u8]) -> Vec<u8> {
    assert!(number < 16 && payload.len() < 128);
    let mut bytes = vec![number * 8 + 2, payload.len() as u8];
    bytes.extend_from_slice(payload);
    bytes
}

pub fn join(parts: &[&[u8]]) -> Vec<u8> {
    parts.concat()
}

/// A block of one group.
pub fn block_of(group: &[u8]) -> Vec<u8> {
    field(2, group)
}

/// A string table field with these strings.
pub fn strings(texts: &[&str]) -> Vec<u8> {
    let table: Vec<u8> = texts.iter().flat_map(|t| field(1, t.as_bytes())).collect();
    field(1, &table)
}

/// The block with room for any tables behind it, scanned.
pub fn scanned(block: &[u8]) -> Result<(Vec<u8>, Record), Refusal> {
    let mut buffer = block.to_vec();
    buffer.resize(block.len() * 9 + 8, 0xEE);
    let record = scan(&mut buffer, block.len() as u64)?;
    Ok((buffer, record))
}

/// Scan, then check: accepted, or the number.
pub fn accept(block: &[u8]) -> Result<(), Refusal> {
    let (buffer, record) = scanned(block)?;
    check(&buffer, &record)
}

/// All steps of a walk: its elements and how it ended (none refused is 0).
pub fn walk(buffer: &[u8], record: &Record, mode: Mode) -> (Vec<Element>, Refusal) {
    let mut state = start(record);
    let mut elements = Vec::new();
    loop {
        let (answer, next) = step(buffer, record, state, mode);
        state = next;
        match answer {
            Answer::Item(element) => elements.push(element),
            Answer::Ended => return (elements, 0),
            Answer::Refused(number) => return (elements, number),
        }
    }
}

/// The plain and the full walk over a block that scans.
pub fn walks(block: &[u8]) -> [(Vec<Element>, Refusal); 2] {
    let (buffer, record) = scanned(block).expect("the block scans");
    [
        walk(&buffer, &record, Mode::Plain),
        walk(&buffer, &record, Mode::Full),
    ]
}
