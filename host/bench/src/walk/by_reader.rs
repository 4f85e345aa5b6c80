//! The simple reader's walks.

use reader::walk::Body;
use reader::{
    Answer, DenseTags, Element, MemberId, Members, Mode, Record, Refs, ShownTag, Tags, bytes_of,
};

use super::sum::Sum;
use super::{Walker, What};

pub struct ByReader(Vec<(Vec<u8>, Record)>);

impl ByReader {
    pub fn new(blocks: &[Vec<u8>]) -> Result<ByReader, String> {
        let blocks: Result<_, _> = blocks.iter().map(|block| scanned(block)).collect();
        blocks.map(ByReader)
    }
}

/// The block with its tables right behind it, and its record.
pub fn scanned(block: &[u8]) -> Result<(Vec<u8>, Record), String> {
    let mut buffer = block.to_vec();
    let len = block.len() as u64;
    buffer.resize(reader::always_enough(len) as usize, 0);
    let record = reader::scan(&mut buffer, len).map_err(refused)?;
    buffer.truncate(record.end() as usize);
    buffer.shrink_to_fit();
    Ok((buffer, record))
}

fn refused(number: u8) -> String {
    format!("refused with {number} by the reader")
}

impl Walker for ByReader {
    fn blocks(&self) -> usize {
        self.0.len()
    }

    fn walk(&mut self, block: usize, what: What) -> Result<Sum, String> {
        let (buffer, record) = &self.0[block];
        let mut sum = Sum::default();
        let mut walk = reader::start(record);
        let step = || walk.advance(buffer, record, Mode::Plain);
        each(step, |found| {
            element(buffer, record, &found, what, &mut sum)
        })?;
        Ok(sum)
    }

    fn check(&mut self, block: usize) -> Result<(), String> {
        let (buffer, record) = &self.0[block];
        reader::check(buffer, record).map_err(refused)
    }

    fn has_check(&self) -> bool {
        true
    }
}

/// All items that steps give.
fn each<T>(
    mut step: impl FnMut() -> Answer<T>,
    mut add: impl FnMut(T) -> Result<(), String>,
) -> Result<(), String> {
    loop {
        match step() {
            Answer::Item(item) => add(item)?,
            Answer::Ended => return Ok(()),
            Answer::Refused(number) => return Err(refused(number)),
        }
    }
}

/// The same of a state by value.
fn all<S: Copy, T>(
    mut state: S,
    step: impl Fn(S) -> (Answer<T>, S),
    mut add: impl FnMut(T),
) -> Result<(), String> {
    let next = || {
        let (answer, next) = step(state);
        state = next;
        answer
    };
    each(next, |item| {
        add(item);
        Ok(())
    })
}

fn element(
    buffer: &[u8],
    record: &Record,
    element: &Element,
    what: What,
    sum: &mut Sum,
) -> Result<(), String> {
    let (id, position) = match &element.body {
        Body::Dense(d) => (d.id, Some((d.lat, d.lon))),
        Body::Node(n) => (n.id, Some((n.lat, n.lon))),
        Body::Way(w) => (w.id, None),
        Body::Relation(r) => (r.id, None),
    };
    sum.element(id as u64);
    if let Some((lat, lon)) = position {
        sum.add(lat as u64);
        sum.add(lon as u64);
    }
    match what {
        What::Elements => Ok(()),
        What::Everything => parts(buffer, record, &element.body, sum),
    }
}

fn parts(buffer: &[u8], record: &Record, body: &Body, sum: &mut Sum) -> Result<(), String> {
    let (keys, vals) = match body {
        Body::Dense(d) => {
            let step = |state| reader::dense_tags_step(buffer, record, state);
            return all(DenseTags::of(d.tags), step, |t| tag(buffer, &t, sum));
        }
        Body::Node(n) => (n.keys, n.vals),
        Body::Way(w) => (w.keys, w.vals),
        Body::Relation(r) => (r.keys, r.vals),
    };
    let step = |state| reader::tags_step(buffer, record, state);
    all(Tags::of(keys, vals), step, |t| tag(buffer, &t, sum))?;
    match body {
        Body::Way(w) => {
            let step = |state| reader::refs_step(buffer, state);
            all(Refs::of(w), step, |id| sum.add(id as u64))
        }
        Body::Relation(r) => {
            let step = |state| reader::members_step(buffer, record, state);
            all(Members::of(r), step, |member| {
                sum.add(i64::from(member.role) as u64);
                let (MemberId::Node(id) | MemberId::Way(id) | MemberId::Relation(id)) = member.id
                else {
                    return;
                };
                sum.add(id as u64);
            })
        }
        _ => Ok(()),
    }
}

fn tag(buffer: &[u8], tag: &ShownTag, sum: &mut Sum) {
    sum.tag(bytes_of(buffer, tag.key), bytes_of(buffer, tag.val));
}
