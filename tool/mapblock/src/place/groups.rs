//! Where the check refuses a scanned block: group by group, in its order.

use std::ops::Range;

use proved::InRange;

use super::asking::{certain_at, count};
use super::kinds::{DENSE_INFO_COLUMNS, KINDS, Kind};
use super::{Element, Place};
use crate::block::{Block, Messages, Walk, part};

/// A tag of one byte and a varint of ten.
const LONGEST_ID: usize = 11;
/// The largest view, so that one answer has room for any.
const VIEW_SIZE: usize = proved::WAY_SIZE;

type View = [u8; VIEW_SIZE];

/// A column as it is named in the schema, where it is present.
type Column = (&'static str, Option<Range<usize>>);

/// What was read, or where it is refused.
type Asked<T> = Result<T, Place>;

/// The search in a scanned block, with what it is looking at.
struct Finder<'a> {
    block: &'a mut Block,
    /// Up to the group that is looked at, for its dense nodes' tags.
    walk: Walk,
    group: Option<usize>,
    element: Option<Element>,
}

/// Where the check refuses a scanned block; none where it accepts it.
pub fn find(block: &mut Block) -> Option<Place> {
    let groups = block.head().groups;
    let mut finder = Finder {
        block,
        walk: Walk::plain(),
        group: None,
        element: None,
    };
    (0..groups).find_map(|group| finder.group(group).err())
}

impl Finder<'_> {
    fn group(&mut self, number: usize) -> Asked<()> {
        self.group = Some(number);
        let group = self.block.group(number);
        let group = group.map_err(|code| self.refused(code, "its table entry", 0..0, 0))?;
        let dense = self.ask(proved::dense, &group, "its own fields")?;
        if let Some(message) = part(&dense, 0) {
            self.dense(number, &message)?;
        }
        for kind in &KINDS {
            let mut messages = Messages::new(&group, kind.field);
            let mut index = 0;
            while let Some(message) = self.block.message(&mut messages) {
                self.message(kind, index, &message)?;
                index += 1;
            }
            self.element = None;
        }
        Ok(())
    }

    fn dense(&mut self, group: usize, message: &Range<usize>) -> Asked<()> {
        let dense = self.ask(proved::dense_nodes, message, "its dense message")?;
        let info = part(&dense, proved::DENSE_NODES_INFO).unwrap_or(0..0);
        let info = self.ask(
            proved::dense_info,
            &info,
            "the DenseInfo of its dense message",
        )?;
        let nodes = self.equal_counts(&[
            ("id", part(&dense, proved::DENSE_NODES_ID)),
            ("lat", part(&dense, proved::DENSE_NODES_LAT)),
            ("lon", part(&dense, proved::DENSE_NODES_LON)),
        ])?;
        if let Some(tags) = part(&dense, proved::DENSE_NODES_KEYS_VALS) {
            self.dense_tags(group, nodes, &tags)?;
        }
        for (name, place) in DENSE_INFO_COLUMNS {
            self.count(&(name, part(&info, place)))?;
        }
        Ok(())
    }

    /// The tags of a group's dense nodes, which only a walk takes apart. By
    /// now all else that it reads of them has been read.
    fn dense_tags(&mut self, group: usize, nodes: usize, keys_vals: &Range<usize>) -> Asked<()> {
        let mut index = 0;
        while index < nodes {
            match self.block.step(&mut self.walk) {
                Ok(element) => {
                    let of_group = proved::number(&element, proved::ELEMENT_GROUP) as usize;
                    index += usize::from(of_group == group);
                }
                Err(number) => {
                    self.element = Some(Element {
                        kind: "dense node",
                        index,
                        id: None,
                    });
                    let what = "its tags in the column keys_vals";
                    return Err(self.column_refused(number, what, keys_vals));
                }
            }
        }
        Ok(())
    }

    fn message(&mut self, kind: &Kind, index: usize, message: &Range<usize>) -> Asked<()> {
        self.element = Some(Element {
            kind: kind.name,
            index,
            id: None,
        });
        let view = self
            .ask(kind.view, message, "its fields")
            .map_err(|place| with_id(place, self.id_in_front(kind, message)))?;
        if let Some(element) = &mut self.element {
            element.id = Some(proved::number(&view, kind.id) as i64);
        }
        if let Some(info) = part(&view, kind.info) {
            self.ask(proved::info, &info, "its Info")?;
        }
        let column = |(name, place)| (name, part(&view, place));
        let tags = [("keys", kind.keys), ("vals", kind.vals)].map(column);
        self.equal_counts(&tags)?;
        let others: Vec<Column> = kind.others.iter().copied().map(column).collect();
        self.equal_counts(&others)?;
        Ok(())
    }

    /// The id of an element that is refused further behind: most writers put
    /// it first. 0 also stands for none, so it is not told.
    fn id_in_front(&mut self, kind: &Kind, message: &Range<usize>) -> Option<i64> {
        let first = (1..=message.len().min(LONGEST_ID)).find_map(|len| {
            let front = message.start..message.start + len;
            self.block.view::<VIEW_SIZE>(kind.view, &front).ok()
        });
        let id = proved::number(&first?, kind.id) as i64;
        (id != 0).then_some(id)
    }

    /// Reads columns to their ends, one after the other, then compares how
    /// many values they have.
    fn equal_counts(&mut self, columns: &[Column]) -> Asked<usize> {
        let counts: Vec<usize> = columns
            .iter()
            .map(|column| self.count(column))
            .collect::<Asked<_>>()?;
        let first = counts.first().copied().unwrap_or(0);
        if counts.iter().all(|&count| count == first) {
            return Ok(first);
        }
        let what = format!(
            "how many values its columns have ({})",
            counts_of(columns, &counts)
        );
        let present = || columns.iter().filter_map(|(_, column)| column.as_ref());
        let start = present().map(|column| column.start).min().unwrap_or(0);
        let end = present().map(|column| column.end).max().unwrap_or(0);
        Err(self.refused(proved::COUNTS, &what, start..end, end.max(1) - 1))
    }

    /// How many values a column has; none where it is not present.
    fn count(&mut self, (name, column): &Column) -> Asked<usize> {
        let Some(column) = column else {
            return Ok(0);
        };
        count(self.block, column)
            .map_err(|number| self.column_refused(number, &format!("its column {name}"), column))
    }

    fn column_refused(&mut self, number: u32, what: &str, column: &Range<usize>) -> Place {
        let byte = certain_at(number, column, |front| count(self.block, front));
        self.refused(number, what, column.clone(), byte)
    }

    /// What a view reads of a range.
    fn ask(&mut self, view: InRange, range: &Range<usize>, what: &str) -> Asked<View> {
        self.block.view(view, range).map_err(|number| {
            let byte = certain_at(number, range, |front| {
                self.block.view::<VIEW_SIZE>(view, front)
            });
            self.refused(number, what, range.clone(), byte)
        })
    }

    fn refused(&self, number: u32, what: &str, bytes: Range<usize>, byte: usize) -> Place {
        Place {
            group: self.group,
            element: self.element.clone(),
            ..Place::new(number, what, bytes, byte)
        }
    }
}

fn with_id(mut place: Place, id: Option<i64>) -> Place {
    if let Some(element) = &mut place.element {
        element.id = id;
    }
    place
}

/// `keys has 3, vals has 2`.
fn counts_of(columns: &[Column], counts: &[usize]) -> String {
    let told = columns.iter().zip(counts);
    let told = told.map(|((name, _), count)| format!("{name} has {count}"));
    told.collect::<Vec<_>>().join(", ")
}
