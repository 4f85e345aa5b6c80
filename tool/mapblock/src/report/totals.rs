//! What accepted blocks hold in all.

use crate::elements::{Element, Kind};

#[derive(Default)]
pub struct Totals {
    pub nodes: u64,
    pub ways: u64,
    pub relations: u64,
    pub tags: u64,
    pub refs: u64,
    pub members: u64,
}

impl Totals {
    pub fn count(&mut self, element: &Element) {
        match element.kind {
            Kind::DenseNode | Kind::Node => self.nodes += 1,
            Kind::Way => self.ways += 1,
            Kind::Relation => self.relations += 1,
        }
        self.tags += element.tags.len() as u64;
        self.refs += element.refs.len() as u64;
        self.members += element.members.len() as u64;
    }

    pub fn add(&mut self, other: &Totals) {
        self.nodes += other.nodes;
        self.ways += other.ways;
        self.relations += other.relations;
        self.tags += other.tags;
        self.refs += other.refs;
        self.members += other.members;
    }

    pub fn elements(&self) -> u64 {
        self.nodes + self.ways + self.relations
    }
}
