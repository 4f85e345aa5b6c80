//! The counts that the comparison prints: per question how often it was asked
//! and which number came back, and the differences, explained and not.

use std::collections::BTreeMap;

use crate::by_c;
use crate::known::KNOWN;
use crate::question::Ask;
use crate::text::{Words, parse_bytes};

/// Unexplained differences that are printed; all are counted.
const SHOWN: usize = 20;
/// Of a long answer or input only this much is printed.
const WIDTH: usize = 400;

#[derive(Default)]
pub struct Tally {
    rows: BTreeMap<&'static str, [u64; 15]>,
    /// How often a question was put through C too.
    through_c: BTreeMap<&'static str, u64>,
    explained: BTreeMap<&'static str, Explained>,
    unexplained: u64,
    shown: Vec<String>,
    /// Blocks that `validate_groups` accepts.
    pub validated: u64,
}

/// How often a kind of difference was met, and its shortest input.
struct Explained {
    times: u64,
    shortest: Vec<u8>,
}

impl Tally {
    /// A question was answered with this number, 0 where it was not refused.
    pub fn count(&mut self, name: &'static str, number: u8) {
        let row = self.rows.entry(name).or_default();
        row[usize::from(number).min(14)] += 1;
    }

    /// A question was put through C too.
    pub fn count_through_c(&mut self, name: &'static str) {
        *self.through_c.entry(name).or_default() += 1;
    }

    /// A difference of this kind, explained if the kind is known.
    pub fn difference(&mut self, kind: &str, bytes: &[u8]) {
        let Some(known) = KNOWN.iter().find(|known| known.kind == kind) else {
            return self.broken(kind, bytes, "");
        };
        let found = self
            .explained
            .entry(known.kind)
            .or_insert_with(|| Explained {
                times: 0,
                shortest: bytes.to_vec(),
            });
        found.times += 1;
        if bytes.len() < found.shortest.len() {
            found.shortest = bytes.to_vec();
        }
    }

    /// Every known kind must have been met, and by nothing shorter than its
    /// smallest input.
    pub fn close(&mut self) {
        for known in &KNOWN {
            let Some(smallest) = parse_bytes(known.smallest) else {
                self.broken("a smallest input is misspelled", &[], known.smallest);
                continue;
            };
            match self.explained.get(known.kind) {
                Some(found) if found.shortest.len() == smallest.len() => {}
                Some(found) => {
                    let shorter = found.shortest.clone();
                    self.broken("a shorter input than the listed one", &shorter, known.kind);
                }
                None => self.broken("a listed difference is not met", &smallest, known.kind),
            }
        }
    }

    /// A difference that no entry explains, with the other side's name and
    /// answer.
    pub fn unexplained(&mut self, ask: Ask, bytes: &[u8], reader: &str, other: (&str, &str)) {
        let what = format!("{} {:?}", ask.name(), ask.numbers());
        let (side, answer) = other;
        let (ours, theirs) = (from(reader, answer), from(answer, reader));
        self.broken(
            &what,
            bytes,
            &format!("\n  reader: {ours}\n  {side}: {theirs}"),
        );
    }

    /// A property that does not hold.
    pub fn broken(&mut self, what: &str, bytes: &[u8], how: &str) {
        self.unexplained += 1;
        if self.shown.len() < SHOWN {
            self.shown.push(format!("{what} on {}{how}", shown(bytes)));
        }
    }

    fn asked(&self, name: &str) -> u64 {
        self.rows.get(name).map_or(0, |row| row.iter().sum())
    }

    fn explained_count(&self) -> u64 {
        self.explained.values().map(|found| found.times).sum()
    }

    pub fn unexplained_count(&self) -> u64 {
        self.unexplained
    }

    /// Prints everything.
    pub fn print(&self) {
        let accepted = self.rows.get("block").map_or(0, |row| row[0]);
        let (blocks, payloads) = (self.asked("block"), self.asked("payload"));
        println!("inputs: {blocks} blocks, {payloads} payloads");
        println!(
            "accepted: {accepted} blocks, by validate_groups too: {}",
            self.validated
        );
        self.print_rows();
        self.print_differences();
    }

    fn print_rows(&self) {
        let column = if by_c::ARCHIVE.is_some() {
            " through C"
        } else {
            ""
        };
        println!(
            "{:<10} {:>9} {:>9}{column}  refused by number",
            "question", "asked", "taken"
        );
        for (name, row) in &self.rows {
            let refused: Vec<String> = (1..15)
                .filter(|&number| row[number] > 0)
                .map(|number| format!("{number}: {}", row[number]))
                .collect();
            println!(
                "{name:<10} {:>9} {:>9}{}  {}",
                self.asked(name),
                row[0],
                self.column_through_c(name),
                refused.join(", ")
            );
        }
    }

    /// There is such a column only where the proved library is linked.
    fn column_through_c(&self, name: &str) -> String {
        match self.through_c.get(name) {
            Some(times) => format!(" {times:>9}"),
            None if by_c::ARCHIVE.is_some() => format!(" {:>9}", ""),
            None => String::new(),
        }
    }

    fn print_differences(&self) {
        println!(
            "differences, explained in docs/DIFFERENCES.md: {}",
            self.explained_count()
        );
        for (kind, found) in &self.explained {
            println!(
                "{:>9}  {kind}; shortest {}",
                found.times,
                shown(&found.shortest)
            );
        }
        println!("differences, unexplained: {}", self.unexplained);
        for difference in &self.shown {
            println!("UNEXPLAINED {difference}");
        }
    }
}

/// An input as it is printed.
fn shown(bytes: &[u8]) -> String {
    let mut words = Words::new();
    words.bytes(bytes);
    cut(&words.done())
}

/// The part of a long answer around its first difference from the other.
fn from(answer: &str, other: &str) -> String {
    let same = answer
        .bytes()
        .zip(other.bytes())
        .take_while(|(a, b)| a == b)
        .count();
    let start = same.saturating_sub(WIDTH / 4);
    cut(&answer[start.min(answer.len())..])
}

fn cut(text: &str) -> String {
    if text.len() <= WIDTH {
        text.to_string()
    } else {
        let start: String = text.chars().take(WIDTH).collect();
        format!("{start}.. ({} bytes)", text.len())
    }
}
