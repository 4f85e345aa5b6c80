//! The wire reader's answers: a varint, a field, a column of varints read in
//! each of the ways that a column can be read.

use reader::column::{boolean, int32, sint32, sint64, uint32};
use reader::wire::{read_payload, read_tag, read_varint};
use reader::{Column, Part};

use super::views::view;
use crate::text::Words;

/// Value and the place behind it.
pub fn varint(bytes: &[u8], at: u64) -> String {
    view(read_varint(bytes, place(at)), |(value, next), out| {
        out.put(value).put(next);
    })
}

/// Tag and payload: field, wire type, value, start and length of the raw
/// bytes, the place behind them.
pub fn field(bytes: &[u8], at: u64) -> String {
    let read =
        read_tag(bytes, place(at)).and_then(|(tag, payload)| read_payload(bytes, tag, payload));
    view(read, |(field, next), out| {
        out.put(field.tag.field)
            .put(field.tag.wire)
            .put(field.value);
        out.put(field.start).put(field.len).put(next);
    })
}

/// Each value raw, then as int32, uint32, sint64, sint32 and bool.
pub fn column(bytes: &[u8]) -> String {
    let mut column = Column::of(Part::at(0, bytes.len()));
    let mut out = Words::new();
    let refused = loop {
        match column.next(bytes) {
            Ok(Some(raw)) => {
                out.put(raw)
                    .put(int32(raw))
                    .put(uint32(raw))
                    .put(sint64(raw));
                out.put(sint32(raw)).put(u8::from(boolean(raw)));
            }
            Ok(None) => break None,
            Err(number) => break Some(number),
        }
    };
    out.end(refused);
    out.done()
}

/// A place that a 64-bit computer has no number for lies outside anyway.
fn place(at: u64) -> usize {
    usize::try_from(at).unwrap_or(usize::MAX)
}
