//! The blocks of a map, each in a buffer of its own with room for its tables,
//! scanned once by the side that is timed on them.

use std::hint::black_box;

use crate::side::Side;
use crate::timing::{Pass, Task};

pub struct Prepared<S: Side> {
    blocks: Vec<Block<S>>,
}

struct Block<S: Side> {
    len: usize,
    buffer: Vec<u8>,
    record: S::Record,
}

impl<S: Side> Prepared<S> {
    /// Scans and checks every block; an error where one is refused.
    pub fn new(blocks: &[Vec<u8>]) -> Result<Prepared<S>, String> {
        let refused = |number| format!("a block is refused with {number}");
        let blocks: Result<Vec<Block<S>>, u32> = blocks.iter().map(|b| Block::new(b)).collect();
        let mut prepared = Prepared {
            blocks: blocks.map_err(refused)?,
        };
        match prepared.pass(Task::Check) {
            0 => Ok(prepared),
            number => Err(refused(number)),
        }
    }

    /// Both sides have the same records and the same bytes in their buffers.
    #[cfg(feature = "proved")]
    pub fn must_equal<T: Side>(&self, other: &Prepared<T>) -> Result<(), String> {
        let pairs = self.blocks.iter().zip(&other.blocks);
        for (number, (one, other)) in pairs.enumerate() {
            if one.buffer != other.buffer || S::read(&one.record) != T::read(&other.record) {
                return Err(format!("block {number} has other tables or another record"));
            }
        }
        Ok(())
    }
}

impl<S: Side> Block<S> {
    /// The buffer is as long as the block and its tables.
    fn new(bytes: &[u8]) -> Result<Block<S>, u32> {
        let len = bytes.len();
        let mut buffer = bytes.to_vec();
        buffer.resize(reader::always_enough(len as u64) as usize, 0);
        let record = S::scan(&mut buffer, len)?;
        buffer.truncate(S::read(&record).end() as usize);
        buffer.shrink_to_fit();
        Ok(Block {
            len,
            buffer,
            record,
        })
    }

    /// The first refusal's number, or 0.
    fn does(&mut self, task: Task) -> u32 {
        let buffer = black_box(&mut self.buffer[..]);
        if task != Task::Check {
            match S::scan(buffer, self.len) {
                Ok(record) => self.record = record,
                Err(number) => return number,
            }
        }
        if task == Task::Scan {
            return 0;
        }
        S::check(buffer, black_box(&mut self.record))
    }
}

impl<S: Side> Pass for Prepared<S> {
    fn pass(&mut self, task: Task) -> u32 {
        let codes = self
            .blocks
            .iter_mut()
            .map(|block| black_box(block.does(task)));
        codes.max().unwrap_or(0)
    }
}
