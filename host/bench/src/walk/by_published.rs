//! The published Rust's walks, without metadata. It has no check.

use published::Opened;
use published::read::block::BlockElementsIter;
use published::read::elements::{Element, MemberId};

use super::sum::Sum;
use super::{PUBLISHED, Sides, Walker, What};

pub fn side(blocks: &[Vec<u8>]) -> Result<Sides, String> {
    let scanned = |block: &Vec<u8>| Opened::scan(block).map_err(|why| why.to_string());
    let blocks: Result<_, _> = blocks.iter().map(scanned).collect();
    Ok(vec![(PUBLISHED, Box::new(ByPublished(blocks?)))])
}

struct ByPublished(Vec<Opened>);

impl Walker for ByPublished {
    fn blocks(&self) -> usize {
        self.0.len()
    }

    fn walk(&mut self, block: usize, what: What) -> Result<Sum, String> {
        let mut sum = Sum::default();
        for found in BlockElementsIter::new_skip_metadata(self.0[block].block()) {
            element(&found, what == What::Everything, &mut sum);
        }
        Ok(sum)
    }

    fn check(&mut self, _block: usize) -> Result<(), String> {
        Err("the published Rust has no check".to_string())
    }

    fn has_check(&self) -> bool {
        false
    }
}

fn element(element: &Element<'_>, everything: bool, sum: &mut Sum) {
    match element {
        Element::DenseNode(d) => {
            sum.element(d.id as u64);
            sum.add(d.lat as u64);
            sum.add(d.lon as u64);
            if everything {
                tags(d.tags(), sum);
            }
        }
        Element::Node(n) => {
            sum.element(n.id() as u64);
            sum.add(n.node.lat as u64);
            sum.add(n.node.lon as u64);
            if everything {
                tags(n.tags(), sum);
            }
        }
        Element::Way(w) => {
            sum.element(w.id() as u64);
            if everything {
                tags(w.tags(), sum);
                w.refs().for_each(|id| sum.add(id as u64));
            }
        }
        Element::Relation(r) => {
            sum.element(r.id() as u64);
            if everything {
                tags(r.tags(), sum);
                for member in r.members() {
                    sum.add(i64::from(member.role_sid) as u64);
                    if let MemberId::Node(id) | MemberId::Way(id) | MemberId::Relation(id) =
                        member.id
                    {
                        sum.add(id as u64);
                    }
                }
            }
        }
    }
}

fn tags<'a>(tags: impl Iterator<Item = (&'a str, &'a str)>, sum: &mut Sum) {
    for (key, val) in tags {
        sum.tag(key.as_bytes(), val.as_bytes());
    }
}
