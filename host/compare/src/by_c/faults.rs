//! What went wrong besides the answer itself.

use crate::text::Words;

#[derive(Debug, Default, PartialEq, Eq)]
pub struct Faults(Vec<&'static str>);

impl Faults {
    pub fn unless(&mut self, holds: bool, what: &'static str) {
        if !holds && !self.0.contains(&what) {
            self.0.push(what);
        }
    }

    pub fn join(&mut self, other: Faults) {
        for what in other.0 {
            self.unless(false, what);
        }
    }

    pub fn put(&self, out: &mut Words) {
        for what in &self.0 {
            out.put("but").put(what);
        }
    }
}
