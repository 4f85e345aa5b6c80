//! The published Rust, built as the judge of the map reader.
//!
//! `read` holds the published modules as the build script lays them out. The
//! crate they stand on, `protohoggr`, can't be had, so `cursor` and `packed`
//! stand in for it, written from document 01 section 1; `error` and
//! `element_kind` stand in for the few names that the taken parts use of the
//! rest of pbfhogg. `refusal` turns the Rust's messages and panics into
//! document 01's numbers, and `opened` holds a scanned block as
//! `PrimitiveBlock` does.

// The published files import from `protohoggr`: here that is this crate.
extern crate self as protohoggr;

mod cursor;
mod element_kind;
mod error;
mod opened;
mod packed;
mod refusal;

pub mod read {
    include!(concat!(env!("OUT_DIR"), "/read.rs"));
}

pub use cursor::{Cursor, WIRE_LEN, WIRE_VARINT, WireError};
pub use element_kind::ElementKind;
pub use opened::Opened;
pub use packed::{
    PackedBoolIter, PackedInt32Iter, PackedSint32Iter, PackedSint64Iter, PackedUint32Iter,
};
pub use refusal::{Refused, caught, refused};

/// The commit that the published files are from.
pub const COMMIT: &str = env!("PBFHOGG_COMMIT");
