//! A simple reader of OSM PBF map blocks, written from document 01 and the
//! Protocol Buffers and OSM PBF texts alone. It is the judge for refusals, so
//! it is clear rather than fast; but no cost grows faster than the block.
//!
//! From the leaf up: `number` (the refusals), `wire` (varints, tags, groups),
//! `column`, `part`, `views` (the six messages), `group` (the dense pass and
//! the message iterator), `scan` (record and tables), `check`, `walk` over
//! `dense` rows and messages with its `subwalk`s, and `run`, a whole walk. Beside
//! them `listing` and `content`, which read a block's bytes alone.

pub mod answer;
pub mod check;
pub mod column;
pub mod content;
pub mod dense;
pub mod group;
pub mod listing;
pub mod number;
pub mod part;
pub mod run;
pub mod scan;
pub mod source;
pub mod subwalk;
pub mod views;
pub mod walk;
pub mod wire;

pub use answer::Answer;
pub use check::check;
pub use column::Column;
pub use content::{content, Content};
pub use group::{classify_group, dense_pass, messages_step, GroupType, Messages};
pub use listing::{full_listing, listing, FullListing, Listing};
pub use number::Refusal;
pub use part::{bytes_of, Part};
pub use run::{all_steps, walked, walked_full};
pub use scan::{always_enough, get, group, role_text, scan, Got, Record};
pub use subwalk::{
    dense_tags_step, members_step, raw_dense_tags_step, raw_tags_step, refs_step, tags_step,
    DenseTags, Member, MemberId, Members, RawTag, Refs, ShownTag, Tags,
};
pub use views::{DenseInfo, DenseNodes, Info, Node, Relation, Way};
pub use walk::{nanodegrees, start, step, Body, DenseNode, DenseNodeInfo, Element, Mode, Walk};
