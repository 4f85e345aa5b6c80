//! `mapblock`, the support desk's tool over the proved library: what it reads,
//! asks and prints. `main.rs` only hands over the command line.

pub mod block;
pub mod blocks;
pub mod check;
pub mod cli;
pub mod compare;
pub mod draw;
mod elements;
mod fields;
mod inflate;
pub mod input;
mod json;
pub mod list;
mod map;
pub mod outcomes;
pub mod output;
pub mod pbf;
pub mod place;
mod progress;
pub mod report;
mod text;
pub mod words;
mod xml;
