//! Writing the wire: varints in any legal spelling, tags, length-delimited
//! fields and zigzag. What is chosen at random is chosen by the caller.

pub const VARINT: u8 = 0;
pub const FIXED64: u8 = 1;
pub const LEN: u8 = 2;
pub const GROUP_START: u8 = 3;
pub const GROUP_END: u8 = 4;
pub const FIXED32: u8 = 5;

/// A varint in its shortest spelling.
pub fn varint(value: u64) -> Vec<u8> {
    let mut bytes = Vec::with_capacity(10);
    let mut rest = value;
    while rest > 0x7F {
        bytes.push(rest as u8 | 0x80);
        rest >>= 7;
    }
    bytes.push(rest as u8);
    bytes
}

/// A varint padded to `len` bytes (at most ten, at least its shortest length).
/// A tenth byte also gets `dropped`, bits that every reader has to drop.
pub fn padded_varint(value: u64, len: usize, dropped: u8) -> Vec<u8> {
    let mut bytes = varint(value);
    while bytes.len() < len {
        let last = bytes.len() - 1;
        bytes[last] |= 0x80;
        bytes.push(0);
    }
    if bytes.len() == 10 {
        bytes[9] |= dropped & 0x7E;
    }
    bytes
}

/// The value of a tag.
pub fn tag(field: u32, wire: u8) -> u64 {
    u64::from(field) << 3 | u64::from(wire)
}

/// zigzag of a signed number.
pub fn zigzag(value: i64) -> u64 {
    let doubled = (value as u64) << 1;
    if value < 0 {
        !doubled
    } else {
        doubled
    }
}

/// zigzag of the differences between neighbours, the first against 0.
pub fn deltas(values: &[i64]) -> Vec<u64> {
    let before = std::iter::once(0).chain(values.iter().copied());
    values
        .iter()
        .zip(before)
        .map(|(v, b)| zigzag(v.wrapping_sub(b)))
        .collect()
}

/// A varint field in shortest spelling.
pub fn varint_field(field: u32, value: u64) -> Vec<u8> {
    [varint(tag(field, VARINT)), varint(value)].concat()
}

/// A length-delimited field in shortest spelling.
pub fn len_field(field: u32, payload: &[u8]) -> Vec<u8> {
    [
        &varint(tag(field, LEN)),
        &varint(payload.len() as u64),
        payload,
    ]
    .concat()
}
