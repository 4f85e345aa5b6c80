//! Stand-in for pbfhogg's error.rs: an error is its sentence, without the
//! place in the file and the context that document 01 leaves out.

use std::fmt;

use crate::cursor::WireError;

pub type Result<T> = std::result::Result<T, Error>;

#[derive(Clone, Copy, Debug)]
pub struct Error(&'static str);

impl fmt::Display for Error {
    fn fmt(&self, f: &mut fmt::Formatter<'_>) -> fmt::Result {
        f.write_str(self.0)
    }
}

impl From<WireError> for Error {
    fn from(err: WireError) -> Error {
        Error(err.as_str())
    }
}

impl fmt::Display for WireError {
    fn fmt(&self, f: &mut fmt::Formatter<'_>) -> fmt::Result {
        f.write_str(self.as_str())
    }
}

pub fn new_wire_error(message: &'static str) -> Error {
    Error(message)
}

pub fn new_stringtable_index_out_of_bounds(_index: usize) -> Error {
    Error("string index out of bounds")
}
