//! Inflate for zlib streams (RFC 1950 and 1951), simple and without tables
//! beyond the counts of a canonical Huffman code, enough for map files.

/// The first length and distance of each code, and the extra bits behind it.
const LENGTH_BASE: [u16; 29] = [
    3, 4, 5, 6, 7, 8, 9, 10, 11, 13, 15, 17, 19, 23, 27, 31, 35, 43, 51, 59, 67, 83, 99, 115, 131,
    163, 195, 227, 258,
];
const LENGTH_EXTRA: [u8; 29] = [
    0, 0, 0, 0, 0, 0, 0, 0, 1, 1, 1, 1, 2, 2, 2, 2, 3, 3, 3, 3, 4, 4, 4, 4, 5, 5, 5, 5, 0,
];
const DISTANCE_BASE: [u16; 30] = [
    1, 2, 3, 4, 5, 7, 9, 13, 17, 25, 33, 49, 65, 97, 129, 193, 257, 385, 513, 769, 1025, 1537,
    2049, 3073, 4097, 6145, 8193, 12289, 16385, 24577,
];
const DISTANCE_EXTRA: [u8; 30] = [
    0, 0, 0, 0, 1, 1, 2, 2, 3, 3, 4, 4, 5, 5, 6, 6, 7, 7, 8, 8, 9, 9, 10, 10, 11, 11, 12, 12, 13,
    13,
];
/// The order in which a dynamic block names the lengths of its code lengths.
const CODE_ORDER: [usize; 19] = [
    16, 17, 18, 0, 8, 7, 9, 6, 10, 5, 11, 4, 12, 3, 13, 2, 14, 1, 15,
];

type Outcome<T> = Result<T, &'static str>;

/// The content of a zlib stream, its checksum tested.
pub fn inflate_zlib(bytes: &[u8]) -> Outcome<Vec<u8>> {
    let [cmf, flg, body @ ..] = bytes else {
        return Err("zlib header is cut");
    };
    let header = u16::from(*cmf) << 8 | u16::from(*flg);
    if cmf & 0x0F != 8 || header % 31 != 0 || flg & 0x20 != 0 {
        return Err("not a zlib header");
    }
    let mut bits = Bits {
        bytes: body,
        at: 0,
        bit: 0,
    };
    let content = inflate(&mut bits)?;
    let checksum = bits.rest().get(..4).ok_or("zlib checksum is cut")?;
    if checksum != adler32(&content).to_be_bytes() {
        return Err("zlib checksum differs");
    }
    Ok(content)
}

fn adler32(bytes: &[u8]) -> u32 {
    let (mut a, mut b) = (1u32, 0u32);
    for &byte in bytes {
        a = (a + u32::from(byte)) % 65521;
        b = (b + a) % 65521;
    }
    b << 16 | a
}

/// Bits of a byte, lowest first.
struct Bits<'a> {
    bytes: &'a [u8],
    at: usize,
    bit: u32,
}

impl<'a> Bits<'a> {
    fn one(&mut self) -> Outcome<u16> {
        let byte = *self.bytes.get(self.at).ok_or("deflate data is cut")?;
        let bit = byte >> self.bit & 1;
        self.bit += 1;
        if self.bit == 8 {
            self.bit = 0;
            self.at += 1;
        }
        Ok(u16::from(bit))
    }

    fn take(&mut self, count: u8) -> Outcome<u16> {
        let mut value = 0;
        for i in 0..count {
            value |= self.one()? << i;
        }
        Ok(value)
    }

    /// The bytes from the next whole byte on.
    fn rest(&mut self) -> &'a [u8] {
        if self.bit > 0 {
            self.bit = 0;
            self.at += 1;
        }
        &self.bytes[self.at..]
    }
}

/// A canonical code: how many codes each length has, and the symbols in order.
struct Huffman {
    counts: [u16; 16],
    symbols: Vec<u16>,
}

impl Huffman {
    fn new(lengths: &[u8]) -> Huffman {
        let mut counts = [0; 16];
        for &length in lengths {
            counts[usize::from(length)] += 1;
        }
        counts[0] = 0;
        let mut symbols = Vec::new();
        for length in 1..16u8 {
            let of_length = lengths.iter().enumerate().filter(|(_, &l)| l == length);
            symbols.extend(of_length.map(|(symbol, _)| symbol as u16));
        }
        Huffman { counts, symbols }
    }

    /// Reads bit by bit until the code falls among those of its length.
    fn symbol(&self, bits: &mut Bits) -> Outcome<u16> {
        let (mut code, mut first, mut index) = (0i32, 0i32, 0i32);
        for &count in &self.counts[1..] {
            code |= i32::from(bits.one()?);
            let count = i32::from(count);
            if code - first < count {
                return Ok(self.symbols[(index + code - first) as usize]);
            }
            index += count;
            first = (first + count) << 1;
            code <<= 1;
        }
        Err("no such Huffman code")
    }
}

fn inflate(bits: &mut Bits) -> Outcome<Vec<u8>> {
    let mut out = Vec::new();
    loop {
        let last = bits.take(1)?;
        match bits.take(2)? {
            0 => stored(bits, &mut out)?,
            1 => {
                let (literals, distances) = fixed_codes();
                compressed(bits, &literals, &distances, &mut out)?;
            }
            2 => {
                let (literals, distances) = dynamic_codes(bits)?;
                compressed(bits, &literals, &distances, &mut out)?;
            }
            _ => return Err("bad deflate block type"),
        }
        if last == 1 {
            return Ok(out);
        }
    }
}

fn stored(bits: &mut Bits, out: &mut Vec<u8>) -> Outcome<()> {
    let rest = bits.rest();
    let [a, b, c, d, data @ ..] = rest else {
        return Err("stored length is cut");
    };
    let len = u16::from_le_bytes([*a, *b]);
    if len != !u16::from_le_bytes([*c, *d]) {
        return Err("stored length differs from its complement");
    }
    let data = data.get(..usize::from(len)).ok_or("stored data is cut")?;
    out.extend_from_slice(data);
    bits.at += 4 + data.len();
    Ok(())
}

fn fixed_codes() -> (Huffman, Huffman) {
    let mut lengths = [8u8; 288];
    lengths[144..256].fill(9);
    lengths[256..280].fill(7);
    (Huffman::new(&lengths), Huffman::new(&[5; 30]))
}

fn dynamic_codes(bits: &mut Bits) -> Outcome<(Huffman, Huffman)> {
    let literals = usize::from(bits.take(5)?) + 257;
    let distances = usize::from(bits.take(5)?) + 1;
    let named = usize::from(bits.take(4)?) + 4;
    let mut code_lengths = [0u8; 19];
    for &symbol in &CODE_ORDER[..named] {
        code_lengths[symbol] = bits.take(3)? as u8;
    }
    let code = Huffman::new(&code_lengths);
    let mut lengths = Vec::with_capacity(literals + distances);
    while lengths.len() < literals + distances {
        let (length, times) = match code.symbol(bits)? {
            16 => {
                let previous = *lengths.last().ok_or("nothing to repeat")?;
                (previous, 3 + bits.take(2)?)
            }
            17 => (0, 3 + bits.take(3)?),
            18 => (0, 11 + bits.take(7)?),
            length => (length as u8, 1),
        };
        lengths.extend(std::iter::repeat_n(length, usize::from(times)));
    }
    if lengths.len() > literals + distances {
        return Err("too many code lengths");
    }
    let (literals, distances) = lengths.split_at(literals);
    Ok((Huffman::new(literals), Huffman::new(distances)))
}

fn compressed(
    bits: &mut Bits,
    literals: &Huffman,
    distances: &Huffman,
    out: &mut Vec<u8>,
) -> Outcome<()> {
    loop {
        match literals.symbol(bits)? {
            literal @ 0..=255 => out.push(literal as u8),
            256 => return Ok(()),
            symbol => copy(bits, usize::from(symbol) - 257, distances, out)?,
        }
    }
}

/// Copies a piece of what came before; it may reach into itself.
fn copy(bits: &mut Bits, code: usize, distances: &Huffman, out: &mut Vec<u8>) -> Outcome<()> {
    let base = *LENGTH_BASE.get(code).ok_or("bad length code")?;
    let length = base + bits.take(LENGTH_EXTRA[code])?;
    let code = usize::from(distances.symbol(bits)?);
    let base = *DISTANCE_BASE.get(code).ok_or("bad distance code")?;
    let distance = usize::from(base) + usize::from(bits.take(DISTANCE_EXTRA[code])?);
    let start = out
        .len()
        .checked_sub(distance)
        .ok_or("distance before the start")?;
    for i in 0..usize::from(length) {
        out.push(out[start + i]);
    }
    Ok(())
}
