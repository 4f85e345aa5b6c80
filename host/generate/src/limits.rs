//! The limits of a scan: the longest block and one byte more, a length past
//! the buffer, and buffers that hold the tables exactly or lack one byte.

use crate::encode::{len_field, tag, varint, LEN};

/// The longest block that a reader takes.
pub const MAX_BLOCK: usize = 33_554_432;

/// A call of the scan: the buffer and the length that is named to it.
pub struct Limit {
    pub name: &'static str,
    pub buffer: Vec<u8>,
    pub block_len: u64,
}

/// Visits the limits one after the other, since some buffers are large.
pub fn for_each_limit(visit: &mut dyn FnMut(Limit)) {
    let mut call = |name, buffer, block_len| {
        visit(Limit {
            name,
            buffer,
            block_len,
        })
    };
    longest(&mut call);
    past_the_buffer(&mut call);
    room_for_tables(&mut call);
}

/// Takes the name, the buffer and the length of a limit.
type Call<'c> = dyn FnMut(&'static str, Vec<u8>, u64) + 'c;

const LONGEST: u64 = MAX_BLOCK as u64;

/// The longest block, and one byte more, which is 1 whatever stands inside.
fn longest(call: &mut Call) {
    let len = MAX_BLOCK;
    call("longest block, no tables", long_block(&[], len), LONGEST);
    call("one byte too long", long_block(&[], len + 1), LONGEST + 1);
    call("too long and bad inside", vec![0x07; len + 1], LONGEST + 1);
    call("too long, with room", vec![0; len + 9], LONGEST + 1);
}

/// Lengths past the buffer: 14, also where 1 could be said.
fn past_the_buffer(call: &mut Call) {
    call("14 against 1", vec![0; 16], LONGEST + 1);
    call("14 against 1, large", vec![0; MAX_BLOCK], LONGEST + 1);
    call("length past an empty buffer", Vec::new(), 1);
    call("length one past the buffer", two_strings(), 10);
    call("largest length", two_strings(), u64::MAX);
}

/// Exactly the room for the tables, one byte less, and what comes before 13.
fn room_for_tables(call: &mut Call) {
    for (name, spare) in [
        ("tables fit", 24),
        ("tables one byte short", 23),
        ("no room", 0),
    ] {
        call(name, with_spare(two_strings(), spare), 9);
    }
    for (name, spare) in [("longest, tables fit", 24), ("longest, one byte short", 23)] {
        let block = long_block(&two_strings(), MAX_BLOCK);
        call(name, with_spare(block, spare), LONGEST);
    }
    for (name, spare) in [("groups fit", 8000), ("groups one byte short", 7999)] {
        let groups = [0x12, 0x00].repeat(1000);
        call(name, with_spare(groups, spare), 2000);
    }
    let bad_field = [two_strings(), vec![0x07]].concat();
    call("bad field before 13", bad_field, 10);
    let bad_string = vec![0x0A, 0x03, 0x0A, 0x00, 0x07, 0x12, 0x00];
    call("bad string before 13", bad_string, 7);
}

/// Strings "" and "a", and one empty group.
fn two_strings() -> Vec<u8> {
    let table = [len_field(1, b""), len_field(1, b"a")].concat();
    [len_field(1, &table), len_field(2, b"")].concat()
}

/// The block filled up to `len` bytes by one unknown field.
fn long_block(front: &[u8], len: usize) -> Vec<u8> {
    let head = [varint(tag(15, LEN)), vec![0x80, 0x80, 0x80, 0x00]].concat();
    let filling = len - front.len() - head.len();
    let mut spelled = head;
    for (i, byte) in spelled[1..].iter_mut().enumerate() {
        *byte |= (filling >> (7 * i)) as u8 & 0x7F;
    }
    let mut block = [front, &spelled].concat();
    block.resize(len, 0x5A);
    block
}

/// The block with this many bytes behind it, which are not 0.
fn with_spare(mut block: Vec<u8>, spare: usize) -> Vec<u8> {
    block.resize(block.len() + spare, 0xEE);
    block
}
