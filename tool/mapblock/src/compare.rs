//! `mapblock compare`: whether two files list the same, block by block, by the
//! library's own comparison; and where they do not, the first difference.

use std::fmt::Display;
use std::io::{self, Write};
use std::path::Path;

use crate::block::{Block, Head};
use crate::elements::{Element, Elements};
use crate::outcomes::{Outcome, Outcomes};
use crate::output::{Fault, Status, complain_of, opened};
use crate::text;

pub fn run(first: &Path, second: &Path, out: &mut dyn Write) -> io::Result<Status> {
    let blocks = opened(first, Outcomes::open_with_progress(first));
    // One bar is enough: both are read side by side.
    let others = opened(second, Outcomes::open(second));
    let (Some(blocks), Some(others)) = (blocks, others) else {
        return Ok(Status::Unread);
    };
    let mut found = Found {
        paths: [first, second],
        faults: [Vec::new(), Vec::new()],
        difference: None,
    };
    // Read to both ends, since a refused block behind a difference counts more.
    let (mut blocks, mut others) = (blocks.fuse(), others.fuse());
    loop {
        match (blocks.next(), others.next()) {
            (None, None) => break,
            (a, b) => found.pair(a, b),
        }
    }
    found.tell(out)
}

/// What has been found so far.
struct Found<'a> {
    paths: [&'a Path; 2],
    faults: [Vec<Fault>; 2],
    difference: Option<String>,
}

impl Found<'_> {
    /// The next block of each file, where it has one.
    fn pair(&mut self, a: Option<Outcome>, b: Option<Outcome>) {
        let names = self.paths.map(|path| path.display().to_string());
        let difference = match (a, b) {
            (Some(Outcome::Accepted(a)), Some(Outcome::Accepted(b))) => {
                if self.difference.is_some() {
                    return;
                }
                let [first, second] = &names;
                let found = difference([first, second], a.block, b.block);
                found.map(|words| format!("block {}: {words}", a.number))
            }
            (a, b) => {
                let longer = usize::from(a.is_none());
                for (outcome, faults) in [a, b].iter().zip(&mut self.faults) {
                    faults.extend(outcome.as_ref().and_then(Outcome::fault));
                }
                Some(format!("{} has more blocks", names[longer]))
            }
        };
        self.difference = self.difference.take().or(difference);
    }

    fn tell(self, out: &mut dyn Write) -> io::Result<Status> {
        let ([first, second], [of_first, of_second]) = (self.paths, self.faults);
        let worst = complain_of(first, of_first).max(complain_of(second, of_second));
        if worst != Status::Fine {
            return Ok(Status::Unread);
        }
        let (words, status) = match self.difference {
            None => ("the same listing".to_string(), Status::Fine),
            Some(words) => (words, Status::Refused),
        };
        writeln!(out, "{words}")?;
        Ok(status)
    }
}

/// Said where the library's comparison and the listing do not agree, which is
/// a fault of one of them.
pub const UNLISTED: &str = "the library says that they differ, and no difference is listed";

/// The first difference between two accepted blocks of these names; none where
/// the library says that they list the same.
pub fn difference([first, second]: [&str; 2], mut a: Block, mut b: Block) -> Option<String> {
    if a.lists_the_same(&mut b) == Ok(true) {
        return None;
    }
    let sides = Sides { first, second };
    let found = sides.heads(&a.head(), &b.head());
    Some(found.unwrap_or_else(|| sides.elements(&mut a, &mut b)))
}

/// What the two files are called where they differ.
struct Sides<'a> {
    first: &'a str,
    second: &'a str,
}

impl Sides<'_> {
    fn heads(&self, a: &Head, b: &Head) -> Option<String> {
        let groups = (a.groups as i64, b.groups as i64);
        [
            ("the granularity", (a.granularity, b.granularity)),
            ("the latitude offset", (a.lat_offset, b.lat_offset)),
            ("the longitude offset", (a.lon_offset, b.lon_offset)),
            ("the number of groups", groups),
        ]
        .into_iter()
        .find_map(|(what, (a, b))| self.differ(what, Some(&a), Some(&b), i64::to_string))
    }

    fn elements(&self, a: &mut Block, b: &mut Block) -> String {
        let (mut a, mut b) = (Elements::plain(a), Elements::plain(b));
        let mut number = 0;
        loop {
            let (one, other) = (a.next(), b.next());
            if one.is_none() && other.is_none() {
                return "the library says that they differ, and no difference is listed"
                    .to_string();
            }
            if let Some(words) = self.element(number, one.as_ref(), other.as_ref()) {
                return words;
            }
            number += 1;
        }
    }

    fn element(&self, number: usize, a: Option<&Element>, b: Option<&Element>) -> Option<String> {
        let named = |element: &Element| format!("group {} {}", element.group, text::name(element));
        let names = (a.map(named), b.map(named));
        let what = format!("element {number}");
        let found = self.differ(&what, names.0.as_ref(), names.1.as_ref(), String::clone);
        if found.is_some() {
            return found;
        }
        let (a, b) = (a?, b?);
        let place = |(lat, lon): &(i64, i64)| format!("{lat} {lon}");
        let (at_a, at_b) = (a.position.as_ref(), b.position.as_ref());
        let found = self
            .differ("the position", at_a, at_b, place)
            .or_else(|| self.lists("tag", &a.tags, &b.tags, text::tag))
            .or_else(|| self.lists("reference", &a.refs, &b.refs, i64::to_string))
            .or_else(|| self.lists("member", &a.members, &b.members, text::member))?;
        Some(format!("{what}, {}: {found}", named(a)))
    }

    /// The first item in which two lists differ.
    fn lists<T: PartialEq>(
        &self,
        what: &str,
        a: &[T],
        b: &[T],
        told: impl Fn(&T) -> String,
    ) -> Option<String> {
        let longest = a.len().max(b.len());
        let number = (0..longest).find(|&i| a.get(i) != b.get(i))?;
        let what = format!("{what} {number}");
        self.differ(&what, a.get(number), b.get(number), told)
    }

    /// `the granularity is 100 in a.bin and 1000 in b.bin`.
    fn differ<T: PartialEq>(
        &self,
        what: impl Display,
        a: Option<&T>,
        b: Option<&T>,
        told: impl Fn(&T) -> String,
    ) -> Option<String> {
        let word = |item: Option<&T>| item.map_or("missing".to_string(), &told);
        (a != b).then(|| {
            let (first, second) = (self.first, self.second);
            format!(
                "{what} is {} in {first} and {} in {second}",
                word(a),
                word(b)
            )
        })
    }
}
