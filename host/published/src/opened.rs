//! A scanned block with its tables behind it, as pbfhogg's `PrimitiveBlock`
//! holds one: the bytes, and a `WireBlock` that borrows from them.

use crate::read::block::{NoProjection, validate_groups};
use crate::read::wire::{WireBlock, WireBlockMeta, scan_block_fields};
use crate::refusal::{Refused, refused};

pub struct Opened {
    // Declared first, so that it is dropped before the bytes that it borrows.
    block: WireBlock<'static>,
    meta: WireBlockMeta,
    buffer: Box<[u8]>,
}

impl Opened {
    /// `scan_block_fields`, then `inline_tables`.
    pub fn scan(bytes: &[u8]) -> Result<Opened, Refused> {
        let (mut strings, mut groups) = (Vec::new(), Vec::new());
        let fields = scan_block_fields(bytes, &mut strings, &mut groups).map_err(refused)?;
        let mut buffer = bytes.to_vec();
        let meta = WireBlock::inline_tables(&mut buffer, &strings, &groups, fields);
        let buffer = buffer.into_boxed_slice();
        // SAFETY: `block` borrows from the heap bytes of `buffer`, which stand
        // still, are never written and live as long as `self`. As in the
        // published `assemble`, 'static is longer than the truth: what is read
        // from the block is not kept beyond `self`.
        let lent: &'static [u8] = unsafe { &*std::ptr::from_ref(&*buffer) };
        let block = WireBlock::from_inline(lent, &meta);
        Ok(Opened {
            block,
            meta,
            buffer,
        })
    }

    pub fn block(&self) -> &WireBlock<'static> {
        &self.block
    }

    pub fn meta(&self) -> &WireBlockMeta {
        &self.meta
    }

    /// The block and the tables behind it.
    pub fn bytes(&self) -> &[u8] {
        &self.buffer
    }

    /// The verdict of `validate_groups` on the block's groups.
    pub fn validate_groups(&self) -> Result<(), Refused> {
        let count = self.block.group_count();
        validate_groups(count, |i| self.block.group(i), &mut NoProjection)
            .map(|_| ())
            .map_err(refused)
    }
}
