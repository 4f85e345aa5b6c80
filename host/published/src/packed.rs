//! Stand-in for the outer crate's packed iterators: a column is varints up to
//! its end, each narrowed as document 01 section 1 says. block.rs tells that
//! the outer crate's iterators end quietly at a bad varint; here they panic
//! with the cursor's sentence, so that a walk over a block that is not
//! accepted shows which refusal it met.

use crate::cursor::{Cursor, unzigzag};

macro_rules! packed_iter {
    ($name:ident, $item:ty, $narrow:expr) => {
        #[derive(Clone)]
        pub struct $name<'a>(Cursor<'a>);

        impl<'a> $name<'a> {
            pub fn new(data: &'a [u8]) -> Self {
                $name(Cursor::new(data))
            }

            pub fn empty() -> Self {
                $name(Cursor::new(&[]))
            }
        }

        impl Iterator for $name<'_> {
            type Item = $item;

            #[inline]
            fn next(&mut self) -> Option<$item> {
                next_value(&mut self.0).map($narrow)
            }
        }
    };
}

packed_iter!(PackedSint64Iter, i64, unzigzag);
packed_iter!(PackedSint32Iter, i32, |v| unzigzag(v & 0xffff_ffff) as i32);
packed_iter!(PackedInt32Iter, i32, |v| v as i32);
packed_iter!(PackedUint32Iter, u32, |v| v as u32);
packed_iter!(PackedBoolIter, bool, |v| v != 0);

fn next_value(cursor: &mut Cursor<'_>) -> Option<u64> {
    if cursor.is_empty() {
        return None;
    }
    match cursor.read_varint() {
        Ok(value) => Some(value),
        Err(err) => panic!("{}", err.as_str()),
    }
}
