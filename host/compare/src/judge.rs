//! One input put to all sides. A block is scanned, checked and walked, and
//! its groups and messages are put to the views as payloads; a payload is put
//! to every view. Where the published Rust is not built in or the proved
//! library not linked, it has no answers; without both, only the counts and
//! the reader's own properties are left.

use reader::group::{NODE, RELATION, WAY};
use reader::{DenseNodes, Mode, Node, Record, Relation, Way};

use crate::by_c;
use crate::by_published;
use crate::by_reader::{self, Opened};
use crate::known::GOES_ON;
use crate::pairs::Pairs;
use crate::question::{Ask, PAYLOAD, lookups, strange_lookups};
use crate::tally::Tally;

/// The other sides, as a difference names them.
const PUBLISHED: &str = "published";
const THROUGH_C: &str = "through C";

/// Questions that are put to C alone, or by what no scan left.
const FORGED: &str = "forged";
const CHANGED: &str = "changed";

/// Whether two blocks list the same.
const SAME: &str = "same";

/// What a changed byte is changed by: its lowest bit, that which says whether a
/// varint goes on, and both with some between.
const CHANGES: [u8; 3] = [0x01, 0x80, 0xd5];

/// What the inputs so far have shown.
#[derive(Default)]
pub struct Judge {
    pub tally: Tally,
    pub pairs: Pairs,
}

impl Judge {
    /// A block: every question about blocks, then its parts as payloads.
    pub fn block(&mut self, bytes: &[u8]) {
        let verdict = by_reader::verdict(bytes);
        self.tally.count("block", verdict);
        self.scan(bytes);
        self.verdicts(bytes, verdict);
        if let Ok((buffer, record)) = by_reader::open(bytes) {
            for ask in [Ask::Check, Ask::Plain, Ask::Full] {
                self.ask(ask, bytes);
            }
            self.parts(&buffer, &record);
        }
        if verdict == 0 {
            self.pairs.accepted(bytes, &mut self.tally);
        }
    }

    /// A payload: every view, whatever it was made for.
    pub fn payload(&mut self, bytes: &[u8]) {
        self.tally.count("payload", 0);
        for ask in PAYLOAD {
            self.ask(ask, bytes);
        }
    }

    /// The scan, in a buffer with room, one just full and one short of it.
    pub fn scan(&mut self, bytes: &[u8]) {
        let len = bytes.len() as u64;
        let full = match by_reader::open(bytes) {
            Ok((buffer, _)) => buffer.len() as u64,
            Err(_) => len,
        };
        for room in [full + 3, full, full.saturating_sub(1)] {
            self.ask(Ask::Scan { len, room }, bytes);
        }
    }

    /// States that no walk over a block left, put to C; with a seed some of
    /// them at random.
    pub fn forged(&mut self, bytes: &[u8], seed: Option<u64>) {
        for tried in by_c::forged(bytes, seed) {
            self.tally.count(FORGED, tried.number);
            self.tally.count_through_c(FORGED);
            if let Some(how) = tried.difference {
                self.tally.broken(FORGED, bytes, &format!("\n  {how}"));
            }
        }
    }

    /// A byte of a scanned buffer changed behind the scan, in the block or in
    /// the tables: the walks by the record of before, without asking the check.
    pub fn changed(&mut self, bytes: &[u8]) {
        let Ok((scanned, record)) = by_reader::open(bytes) else {
            return;
        };
        for at in 0..scanned.len() {
            for change in CHANGES {
                let mut buffer = scanned.clone();
                buffer[at] ^= change;
                self.walks(&buffer, &record);
                self.beside(&buffer, &scanned, &record);
            }
        }
    }

    /// Both walks over a buffer by a record.
    fn walks(&mut self, buffer: &[u8], record: &Record) {
        for (ask, mode) in [(Ask::Plain, Mode::Plain), (Ask::Full, Mode::Full)] {
            let Some(proved) = by_c::walked(buffer, record, mode) else {
                return;
            };
            let reader = by_reader::walked(buffer, record, mode);
            self.tally.count(CHANGED, number_of(ask, &reader));
            self.tally.count_through_c(CHANGED);
            if proved != reader {
                let other = (THROUGH_C, &proved[..]);
                self.tally.unexplained(ask, buffer, &reader, other);
            }
        }
    }

    /// Two blocks: whether they list the same, both ways round. Where both are
    /// accepted, that is whether their listings are equal, and so their
    /// contents.
    pub fn pair(&mut self, one: &[u8], other: &[u8]) {
        let (Ok(a), Ok(b)) = (by_reader::open(one), by_reader::open(other)) else {
            return;
        };
        let (a, b) = ((&a.0[..], &a.1), (&b.0[..], &b.1));
        for (first, second) in [(a, b), (b, a)] {
            let reader = by_reader::same(first, second);
            self.tally_same(first, &reader, by_c::same_around(first, second));
        }
        if by_reader::verdict(one) == 0 && by_reader::verdict(other) == 0 {
            let listed = reader::listing(one) == reader::listing(other);
            let contained = reader::content(one) == reader::content(other);
            let told = format!("0 {}", u8::from(listed));
            if listed != contained || by_reader::same(a, b) != told {
                self.tally.broken(SAME, one, " and another block");
            }
        }
    }

    /// A buffer that was changed behind its scan, beside the scanned one.
    fn beside(&mut self, changed: &[u8], scanned: &[u8], record: &Record) {
        let (a, b) = ((changed, record), (scanned, record));
        for (first, second) in [(a, b), (b, a), (a, a)] {
            let reader = by_reader::same(first, second);
            self.tally_same(first, &reader, by_c::same(first, second));
        }
    }

    fn tally_same(&mut self, first: Opened, reader: &str, proved: Option<String>) {
        let number = reader.split(' ').next().and_then(|word| word.parse().ok());
        self.tally.count(SAME, number.unwrap_or(0));
        let Some(proved) = proved else { return };
        self.tally.count_through_c(SAME);
        if proved != reader {
            let how = format!(" beside another\n  reader: {reader}\n  {THROUGH_C}: {proved}");
            self.tally.broken(SAME, first.0, &how);
        }
    }

    /// Asks all sides and compares.
    pub fn ask(&mut self, ask: Ask, bytes: &[u8]) {
        let reader = by_reader::answer(ask, bytes);
        self.tally.count(ask.name(), number_of(ask, &reader));
        self.compare(ask, bytes, &reader);
        self.compare_through_c(ask, bytes, &reader);
    }

    /// Strings and groups at the ends of a scanned block's tables, and by
    /// strange records; then every group, and the messages in it.
    fn parts(&mut self, buffer: &[u8], record: &Record) {
        for ask in lookups(record).into_iter().chain(strange_lookups(record)) {
            self.ask(ask, buffer);
        }
        for index in 0..record.group_count {
            if let Ok((start, len)) = reader::group(buffer, record, index) {
                self.group(&buffer[start..start + len]);
            }
        }
    }

    fn group(&mut self, group: &[u8]) {
        for ask in [Ask::DensePass, Ask::Classify] {
            self.ask(ask, group);
        }
        for field in 1..=4 {
            self.ask(Ask::Messages { field }, group);
        }
        if let Ok(dense) = reader::dense_pass(group, 0, group.len()) {
            self.dense(reader::bytes_of(group, dense));
        }
        for (field, ask) in [
            (NODE, Ask::Node),
            (WAY, Ask::Way),
            (RELATION, Ask::Relation),
        ] {
            for message in messages(group, field) {
                self.message(ask, message);
            }
        }
    }

    fn dense(&mut self, message: &[u8]) {
        self.ask(Ask::Dense, message);
        if let Ok(dense) = DenseNodes::read(message, 0, message.len()) {
            self.ask(Ask::DenseInfo, reader::bytes_of(message, dense.info));
        }
    }

    fn message(&mut self, ask: Ask, message: &[u8]) {
        self.ask(ask, message);
        let all = message.len();
        let info = match ask {
            Ask::Node => Node::read(message, 0, all).map(|node| node.info),
            Ask::Way => Way::read(message, 0, all).map(|way| way.info),
            _ => Relation::read(message, 0, all).map(|relation| relation.info),
        };
        if let Ok(info) = info {
            self.ask(Ask::Info, reader::bytes_of(message, info));
        }
    }

    /// Holds an answer of the reader against the published Rust's.
    fn compare(&mut self, ask: Ask, bytes: &[u8], reader: &str) {
        if let Some(published) = by_published::answer(ask, bytes)
            && published != reader
        {
            self.tally
                .unexplained(ask, bytes, reader, (PUBLISHED, &published));
        }
        if let Ask::Messages { field } = ask
            && by_published::goes_on_after_its_end(bytes, field)
        {
            self.tally.difference(GOES_ON, bytes);
        }
    }

    /// Holds an answer of the reader against the proved library's.
    fn compare_through_c(&mut self, ask: Ask, bytes: &[u8], reader: &str) {
        if let Some(proved) = by_c::answer(ask, bytes) {
            self.tally.count_through_c(ask.name());
            if proved != reader {
                self.tally
                    .unexplained(ask, bytes, reader, (THROUGH_C, &proved));
            }
        }
    }

    /// Whatever `validate_groups` accepts, the check accepts; and the check
    /// equals the one composed of the published parsers.
    fn verdicts(&mut self, bytes: &[u8], verdict: u8) {
        let answer = verdict.to_string();
        if let Some(composed) = by_published::composed_check(bytes)
            && composed != answer
        {
            self.tally
                .unexplained(Ask::Check, bytes, &answer, (PUBLISHED, &composed));
        }
        match by_published::validate_groups(bytes) {
            Some(Ok(())) if verdict == 0 => self.tally.validated += 1,
            Some(Ok(())) => {
                let what = "validate_groups accepts, the check does not";
                self.tally.broken(what, bytes, &answer);
            }
            Some(Err(why)) if verdict == 0 => {
                self.tally
                    .difference(&format!("validate_groups: {why}"), bytes);
            }
            _ => {}
        }
    }
}

fn messages(group: &[u8], field: u32) -> Vec<&[u8]> {
    let mut found = Vec::new();
    let mut state = reader::Messages::new(field, 0, group.len());
    while let (reader::Answer::Item(message), next) = reader::messages_step(group, state) {
        found.push(reader::bytes_of(group, message));
        state = next;
    }
    found
}

/// The number that an answer tells: that of the last step where the answer is
/// steps, else its first word; 0 where nothing was refused.
pub fn number_of(ask: Ask, answer: &str) -> u8 {
    let number = match ask {
        Ask::Classify => return 0,
        Ask::Column | Ask::Messages { .. } | Ask::Plain | Ask::Full => {
            answer.rsplit_once("! ").map_or("0", |(_, number)| number)
        }
        _ => answer.split(' ').next().unwrap_or("0"),
    };
    number.parse().unwrap_or(0)
}
