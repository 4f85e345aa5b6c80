//! A block as listing and content read it: from its bytes alone, with the
//! strings of the chosen table and the groups in lists of their own. No
//! record, no table behind the block and no walk is used here.

use crate::column::{int32, sint64, uint32, Column};
use crate::number::{Refusal, COUNTS_DIFFER};
use crate::part::Part;
use crate::scan::{block_fields, for_each_group, for_each_string, BlockFields};
use crate::subwalk::next_pair;
use crate::views::Relation;
use crate::wire::{for_each_field, LEN};

/// A tag as it is shown: the bytes of its two strings.
pub type TagText<'a> = (&'a [u8], &'a [u8]);

/// The bytes of a block and what stands at its top level.
pub struct Source<'a> {
    pub block: &'a [u8],
    pub fields: BlockFields,
    pub groups: Vec<Part>,
    strings: Vec<&'a [u8]>,
}

/// The stored values of a relation's three member columns.
pub struct StoredMembers {
    pub roles: Vec<i32>,
    pub memids: Vec<i64>,
    pub types: Vec<i32>,
}

impl<'a> Source<'a> {
    pub fn read(block: &'a [u8]) -> Result<Source<'a>, Refusal> {
        let fields = block_fields(block)?;
        let mut strings = Vec::new();
        for_each_string(block, fields.string_table, |f| {
            strings.push(&block[f.start..f.start + f.len]);
        })?;
        let mut groups = Vec::new();
        for_each_group(block, |f| groups.push(Part::at(f.start, f.len)))?;
        Ok(Source {
            block,
            fields,
            groups,
            strings,
        })
    }

    /// The messages of one field in a group, in stored order.
    pub fn messages(&self, group: Part, field: u32) -> Result<Vec<Part>, Refusal> {
        let mut found = Vec::new();
        for_each_field(&self.block[..group.end()], group.start, |f| {
            if (f.tag.field, f.tag.wire) == (field, LEN) {
                found.push(Part::at(f.start, f.len));
            }
            Ok(())
        })?;
        Ok(found)
    }

    /// The stored values of a column.
    pub fn stored<T>(&self, column: Part, read: fn(u64) -> T) -> Result<Vec<T>, Refusal> {
        Column::of(column).values(self.block, read)
    }

    /// Shown tags: string pairs up to the first pair with a number past the table.
    fn shown(&self, pairs: impl Iterator<Item = (u64, u64)>) -> Vec<TagText<'a>> {
        pairs
            .map_while(|(key, val)| Some((self.string(key)?, self.string(val)?)))
            .collect()
    }

    /// The shown tags of a node, way or relation.
    pub fn tags(&self, keys: Part, vals: Part) -> Result<Vec<TagText<'a>>, Refusal> {
        let keys = self.stored(keys, uint32)?;
        let vals = self.stored(vals, uint32)?;
        if keys.len() != vals.len() {
            return Err(COUNTS_DIFFER);
        }
        Ok(self.shown(
            keys.into_iter()
                .map(u64::from)
                .zip(vals.into_iter().map(u64::from)),
        ))
    }

    /// The shown tags of each of `nodes` dense nodes. Bytes after the last
    /// node's pairs are unread.
    pub fn dense_tags(
        &self,
        keys_vals: Part,
        nodes: usize,
    ) -> Result<Vec<Vec<TagText<'a>>>, Refusal> {
        let mut column = Column::of(keys_vals);
        let mut tags = Vec::with_capacity(nodes);
        for _ in 0..nodes {
            let mut pairs = Vec::new();
            while let Some(pair) = next_pair(self.block, &mut column)? {
                pairs.push(pair);
            }
            tags.push(self.shown(pairs.into_iter()));
        }
        Ok(tags)
    }

    /// The text of a role; no text is not an empty one.
    pub fn role(&self, role: i32) -> Option<&'a [u8]> {
        self.string(u64::try_from(role).ok()?)
    }

    /// The stored values of the member columns, of equal count.
    pub fn members(&self, relation: &Relation) -> Result<StoredMembers, Refusal> {
        let roles = self.stored(relation.roles, int32)?;
        let memids = self.stored(relation.memids, sint64)?;
        let types = self.stored(relation.types, int32)?;
        if roles.len() != memids.len() || roles.len() != types.len() {
            return Err(COUNTS_DIFFER);
        }
        Ok(StoredMembers {
            roles,
            memids,
            types,
        })
    }

    fn string(&self, index: u64) -> Option<&'a [u8]> {
        self.strings.get(usize::try_from(index).ok()?).copied()
    }
}

/// Running sums of stored differences, wrapping, from 0.
pub fn running_sums(differences: &[i64]) -> Vec<i64> {
    let sums = differences.iter().scan(0i64, |sum, &difference| {
        *sum = sum.wrapping_add(difference);
        Some(*sum)
    });
    sums.collect()
}

/// Three columns that must have one count.
pub fn same_count(a: &[i64], b: &[i64], c: &[i64]) -> Result<(), Refusal> {
    if a.len() == b.len() && a.len() == c.len() {
        Ok(())
    } else {
        Err(COUNTS_DIFFER)
    }
}
