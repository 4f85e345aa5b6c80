//! The two small messages around a block, BlobHeader and Blob: their fields,
//! read with every length tested. The block itself is the library's to read.

/// A field of a message: a number, or bytes.
pub enum Value<'a> {
    Number(u64),
    Bytes(&'a [u8]),
}

/// All fields with their numbers, or what is wrong in words.
pub fn fields(mut message: &[u8]) -> Result<Vec<(u64, Value<'_>)>, &'static str> {
    let mut found = Vec::new();
    while !message.is_empty() {
        let tag = take_varint(&mut message)?;
        let value = match tag & 7 {
            0 => Value::Number(take_varint(&mut message)?),
            1 => Value::Bytes(take(&mut message, 8)?),
            2 => {
                let len = take_varint(&mut message)?;
                Value::Bytes(take(&mut message, len)?)
            }
            5 => Value::Bytes(take(&mut message, 4)?),
            _ => return Err("a field has a wire type that these messages do not have"),
        };
        found.push((tag >> 3, value));
    }
    Ok(found)
}

fn take<'a>(message: &mut &'a [u8], len: u64) -> Result<&'a [u8], &'static str> {
    let len = usize::try_from(len).map_err(|_| "a length passes the end")?;
    let (bytes, rest) = message
        .split_at_checked(len)
        .ok_or("a length passes the end")?;
    *message = rest;
    Ok(bytes)
}

fn take_varint(message: &mut &[u8]) -> Result<u64, &'static str> {
    let mut value = 0;
    for shift in (0..64).step_by(7) {
        let (&byte, rest) = message.split_first().ok_or("a number is cut")?;
        *message = rest;
        value |= u64::from(byte & 0x7F) << shift;
        if byte < 0x80 {
            return Ok(value);
        }
    }
    Err("a number has more than ten bytes")
}

#[cfg(test)]
mod tests {
    use super::{Value, fields};

    #[test]
    fn numbers_and_bytes_are_read() {
        let read = fields(&[0x08, 0x96, 0x01, 0x12, 0x02, 0x61, 0x62]).expect("two fields");
        assert!(matches!(read[0], (1, Value::Number(150))));
        assert!(matches!(read[1], (2, Value::Bytes(b"ab"))));
    }

    #[test]
    fn what_is_cut_or_too_long_is_an_error() {
        for message in [
            &[0x08][..],
            &[0x12, 0x05, 0x61],
            &[0x09, 0, 0],
            &[0x0B],
            &[0xFF; 11],
        ] {
            assert!(fields(message).is_err(), "{message:02x?}");
        }
    }
}
