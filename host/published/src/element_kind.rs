//! Stand-in for pbfhogg's element kinds: the set of kinds that
//! `validate_groups` gathers beside its verdict. Only the verdict is used.

#[derive(Clone, Copy, Debug)]
pub enum ElementKind {
    Node,
    Way,
    Relation,
}

#[derive(Clone, Copy, Debug, Default)]
pub struct KindSet(u8);

impl KindSet {
    pub fn add(&mut self, kind: ElementKind) {
        self.0 |= 1 << kind as u8;
    }

    pub fn union(self, other: KindSet) -> KindSet {
        KindSet(self.0 | other.0)
    }
}
