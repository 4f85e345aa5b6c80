//! Whether two blocks list the same, by the simple reader: both checks, 14 of
//! either before any other number, and then the two plain walks in step, up to
//! the first difference or number. Texts count by their bytes.

use reader::number::OUTSIDE;
use reader::walk::Body;
use reader::{
    Answer, Column, DenseTags, Element, Got, Member, Members, Mode, Part, Record, Refs, Refusal,
    ShownTag, Tags, bytes_of,
};

use super::Opened;

/// Yes or no, or the number that is met first.
pub fn same(first: Opened, second: Opened) -> Result<bool, Refusal> {
    let checks = [first, second].map(|(buffer, record)| reader::check(buffer, record));
    if checks.contains(&Err(OUTSIDE)) {
        return Err(OUTSIDE);
    }
    checks[0]?;
    checks[1]?;
    if scalars(first.1) != scalars(second.1) {
        return Ok(false);
    }
    let walk = |(buffer, record)| move |walk| reader::step(buffer, record, walk, Mode::Plain);
    let starts = (reader::start(first.1), reader::start(second.1));
    in_step(starts, walk(first), walk(second), |x, y| {
        element(first, &x, second, &y)
    })
}

fn scalars(record: &Record) -> (i32, i64, i64, u64) {
    let Record {
        granularity,
        lat_offset,
        lon_offset,
        group_count,
        ..
    } = *record;
    (granularity, lat_offset, lon_offset, group_count)
}

/// Two walks, each from its state on: the first's number comes before the
/// second's, and both before a difference at the same place.
fn in_step<T: Copy, S>(
    (mut a, mut b): (S, S),
    mut first: impl FnMut(S) -> (Answer<T>, S),
    mut second: impl FnMut(S) -> (Answer<T>, S),
    mut same: impl FnMut(T, T) -> Result<bool, Refusal>,
) -> Result<bool, Refusal> {
    loop {
        let ((x, behind_x), (y, behind_y)) = (first(a), second(b));
        match (x, y) {
            (Answer::Refused(number), _) | (_, Answer::Refused(number)) => return Err(number),
            (Answer::Ended, Answer::Ended) => return Ok(true),
            (Answer::Item(x), Answer::Item(y)) if same(x, y)? => {}
            _ => return Ok(false),
        }
        (a, b) = (behind_x, behind_y);
    }
}

/// Group, kind, id and raw position; then tags, references and members.
fn element(first: Opened, x: &Element, second: Opened, y: &Element) -> Result<bool, Refusal> {
    if x.group != y.group {
        return Ok(false);
    }
    match (x.body, y.body) {
        (Body::Dense(x), Body::Dense(y)) => {
            let heads = (x.id, x.lat, x.lon) == (y.id, y.lat, y.lon);
            Ok(heads && dense_tags(first, x.tags, second, y.tags)?)
        }
        (Body::Node(x), Body::Node(y)) => {
            let heads = (x.id, x.lat, x.lon) == (y.id, y.lat, y.lon);
            Ok(heads && tags(first, (x.keys, x.vals), second, (y.keys, y.vals))?)
        }
        (Body::Way(x), Body::Way(y)) => Ok(x.id == y.id
            && tags(first, (x.keys, x.vals), second, (y.keys, y.vals))?
            && refs(first, Refs::of(&x), second, Refs::of(&y))?),
        (Body::Relation(x), Body::Relation(y)) => Ok(x.id == y.id
            && tags(first, (x.keys, x.vals), second, (y.keys, y.vals))?
            && members(first, Members::of(&x), second, Members::of(&y))?),
        _ => Ok(false),
    }
}

/// The tags of keys and vals.
fn tags(
    first: Opened,
    (keys, vals): (Part, Part),
    second: Opened,
    (others, values): (Part, Part),
) -> Result<bool, Refusal> {
    let step = |(buffer, record)| move |state| reader::tags_step(buffer, record, state);
    let starts = (Tags::of(keys, vals), Tags::of(others, values));
    in_step(starts, step(first), step(second), |x, y| {
        Ok(texts(first, x) == texts(second, y))
    })
}

fn dense_tags(first: Opened, x: Column, second: Opened, y: Column) -> Result<bool, Refusal> {
    let step = |(buffer, record)| move |state| reader::dense_tags_step(buffer, record, state);
    in_step(
        (DenseTags::of(x), DenseTags::of(y)),
        step(first),
        step(second),
        |x, y| Ok(texts(first, x) == texts(second, y)),
    )
}

fn texts<'a>((buffer, _): Opened<'a>, tag: ShownTag) -> [&'a [u8]; 2] {
    [bytes_of(buffer, tag.key), bytes_of(buffer, tag.val)]
}

fn refs(first: Opened, x: Refs, second: Opened, y: Refs) -> Result<bool, Refusal> {
    let step = |(buffer, _)| move |state| reader::refs_step(buffer, state);
    in_step((x, y), step(first), step(second), |x, y| Ok(x == y))
}

fn members(first: Opened, x: Members, second: Opened, y: Members) -> Result<bool, Refusal> {
    let step = |(buffer, record)| move |state| reader::members_step(buffer, record, state);
    in_step((x, y), step(first), step(second), |x, y| {
        let (role, other) = (role(first, &x)?, role(second, &y)?);
        Ok(role == other && x.id == y.id)
    })
}

/// The text of a member's role; none is another thing than an empty one.
fn role<'a>((buffer, record): Opened<'a>, member: &Member) -> Result<Option<&'a [u8]>, Refusal> {
    match reader::role_text(buffer, record, member.role) {
        Got::Text(start, len) => Ok(Some(&buffer[start..start + len])),
        Got::None => Ok(None),
        Got::Refused(number) => Err(number),
    }
}
