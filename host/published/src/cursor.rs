//! Stand-in for the outer crate's `Cursor`, from document 01 section 1: the
//! varint, the tag, the length, the skip. Its refusals are document 01's
//! numbers 2 to 7. `skip_field` is given no field number, so the cursor keeps
//! the one of the last tag: that a group ends at its own number, and that
//! sixteen may be open, is ours. A refused read leaves the cursor where it
//! was; the published text does not say what the outer crate does.

pub const WIRE_VARINT: u32 = 0;
const WIRE_FIXED64: u32 = 1;
pub const WIRE_LEN: u32 = 2;
const WIRE_GROUP: u32 = 3;
const WIRE_GROUP_END: u32 = 4;
const WIRE_FIXED32: u32 = 5;

/// Skipped groups that may be open at once.
const OPEN_GROUPS: usize = 16;

/// A refusal of the wire reader, by document 01's number.
#[derive(Clone, Copy, Debug, PartialEq, Eq)]
pub enum WireError {
    VarintEnds,
    VarintTooLong,
    BadTag,
    BadWireType,
    PassesEnd,
    GroupsTooDeep,
}

impl WireError {
    /// The sentence that `refusal` maps to the number.
    #[inline]
    pub fn as_str(self) -> &'static str {
        match self {
            WireError::VarintEnds => "stand-in: bytes end in a varint",
            WireError::VarintTooLong => "stand-in: ten varint bytes with the top bit set",
            WireError::BadTag => "stand-in: tag out of range",
            WireError::BadWireType => "stand-in: wire type refused",
            WireError::PassesEnd => "stand-in: value passes the end",
            WireError::GroupsTooDeep => "stand-in: groups too deep",
        }
    }
}

#[derive(Clone, Debug)]
pub struct Cursor<'a> {
    rest: &'a [u8],
    field: u32,
}

impl<'a> Cursor<'a> {
    #[inline]
    pub fn new(data: &'a [u8]) -> Self {
        Cursor {
            rest: data,
            field: 0,
        }
    }

    #[inline]
    pub fn is_empty(&self) -> bool {
        self.rest.is_empty()
    }

    #[inline]
    pub fn remaining(&self) -> usize {
        self.rest.len()
    }

    /// Ten bytes at most; of the tenth only the lowest bit counts.
    #[inline]
    pub fn read_varint(&mut self) -> Result<u64, WireError> {
        let mut value = 0;
        for (i, &byte) in self.rest.iter().take(10).enumerate() {
            value |= u64::from(byte & 0x7f) << (7 * i);
            if byte < 0x80 {
                self.rest = &self.rest[i + 1..];
                return Ok(value);
            }
        }
        if self.rest.len() < 10 {
            Err(WireError::VarintEnds)
        } else {
            Err(WireError::VarintTooLong)
        }
    }

    #[inline]
    pub fn read_varint_i64(&mut self) -> Result<i64, WireError> {
        self.read_varint().map(|value| value as i64)
    }

    #[inline]
    pub fn read_sint64(&mut self) -> Result<i64, WireError> {
        self.read_varint().map(unzigzag)
    }

    /// Field number and wire type, or none at the end.
    #[inline]
    pub fn read_tag(&mut self) -> Result<Option<(u32, u32)>, WireError> {
        if self.is_empty() {
            return Ok(None);
        }
        let before = self.rest;
        let tag = u32::try_from(self.read_varint()?).unwrap_or(0);
        if tag >> 3 == 0 {
            self.rest = before;
            return Err(WireError::BadTag);
        }
        self.field = tag >> 3;
        Ok(Some((tag >> 3, tag & 7)))
    }

    #[inline]
    pub fn read_len_delimited(&mut self) -> Result<&'a [u8], WireError> {
        let before = self.rest;
        let len = self.read_varint()?;
        self.take(len).inspect_err(|_| self.rest = before)
    }

    /// A field's raw bytes: of a varint its own, of a length-delimited field
    /// its payload.
    #[inline]
    pub fn read_raw_field(&mut self, wire_type: u32) -> Result<&'a [u8], WireError> {
        if wire_type == WIRE_LEN {
            return self.read_len_delimited();
        }
        let before = self.rest;
        self.skip_field(wire_type)?;
        Ok(&before[..before.len() - self.rest.len()])
    }

    /// Skips the value of the tag that was read last.
    #[inline]
    pub fn skip_field(&mut self, wire_type: u32) -> Result<(), WireError> {
        let before = self.clone();
        self.skip(wire_type).inspect_err(|_| *self = before)
    }

    fn skip(&mut self, wire_type: u32) -> Result<(), WireError> {
        match wire_type {
            WIRE_VARINT => self.read_varint().map(|_| ()),
            WIRE_FIXED64 => self.take(8).map(|_| ()),
            WIRE_LEN => self.read_len_delimited().map(|_| ()),
            WIRE_GROUP => self.skip_group(),
            WIRE_FIXED32 => self.take(4).map(|_| ()),
            _ => Err(WireError::BadWireType),
        }
    }

    /// Behind the opening tag, to behind the tag that closes it.
    fn skip_group(&mut self) -> Result<(), WireError> {
        let mut open = vec![self.field];
        while let Some(&innermost) = open.last() {
            let (field, wire_type) = self.read_tag()?.ok_or(WireError::PassesEnd)?;
            match wire_type {
                WIRE_GROUP if open.len() == OPEN_GROUPS => return Err(WireError::GroupsTooDeep),
                WIRE_GROUP => open.push(field),
                WIRE_GROUP_END if field == innermost => drop(open.pop()),
                other => self.skip(other)?,
            }
        }
        Ok(())
    }

    fn take(&mut self, len: u64) -> Result<&'a [u8], WireError> {
        match usize::try_from(len) {
            Ok(len) if len <= self.rest.len() => {
                let (part, rest) = self.rest.split_at(len);
                self.rest = rest;
                Ok(part)
            }
            _ => Err(WireError::PassesEnd),
        }
    }
}

pub(crate) fn unzigzag(value: u64) -> i64 {
    (value >> 1) as i64 ^ -((value & 1) as i64)
}
