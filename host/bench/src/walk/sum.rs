//! What a walk comes to: all that it read, added up, so that every side reads
//! the same and nothing that is read can be left out.

#[derive(Clone, Copy, Debug, Default, PartialEq, Eq)]
pub struct Sum {
    pub elements: u64,
    total: u64,
}

impl Sum {
    /// Another block's.
    pub fn join(&mut self, other: Sum) {
        self.elements += other.elements;
        self.add(other.total);
    }

    /// One element more, by its id.
    pub fn element(&mut self, id: u64) {
        self.elements += 1;
        self.add(id);
    }

    /// A position, a reference, a role.
    pub fn add(&mut self, number: u64) {
        self.total = self.total.wrapping_add(number);
    }

    /// A tag by its texts: their lengths and first bytes.
    pub fn tag(&mut self, key: &[u8], val: &[u8]) {
        self.add(3 * key.len() as u64 + val.len() as u64);
        for text in [key, val] {
            self.add(u64::from(text.first().copied().unwrap_or(0)));
        }
    }
}
