//! One block and what the library says of it. Every answer about the block's
//! bytes is the library's; this module only lends the memory and reads the
//! numbers out of the answers.

use std::ops::Range;

use proved::InRange;

/// How many references are asked for at once.
const BATCH: usize = 256;

/// A block with room for its tables behind it, as the library read it.
pub struct Block {
    buffer: Vec<u8>,
    len: usize,
    record: [u8; proved::RECORD_SIZE],
    scanned: Result<(), u32>,
    number: u32,
}

/// What the listing says of the block as a whole.
pub struct Head {
    pub granularity: i64,
    pub date_granularity: i64,
    pub lat_offset: i64,
    pub lon_offset: i64,
    pub groups: usize,
}

impl Block {
    /// Scans a block and, where that succeeds, checks it.
    pub fn read(mut bytes: Vec<u8>) -> Block {
        let len = bytes.len();
        // No room is needed where the scan says that the block is too long.
        if len <= proved::BLOCK_LIMIT {
            bytes.resize(proved::BUFFER_TIMES * len, 0);
        }
        let mut record = [0; proved::RECORD_SIZE];
        let scanned = done(proved::scan(&mut bytes, len, &mut record));
        let checked = scanned.and_then(|()| done(proved::check(&mut bytes, &mut record)));
        Block {
            buffer: bytes,
            len,
            record,
            scanned,
            number: checked.err().unwrap_or(proved::OK),
        }
    }

    /// 0 where the block is accepted, or the number with which it is refused.
    pub fn number(&self) -> u32 {
        self.number
    }

    pub fn is_accepted(&self) -> bool {
        self.number == proved::OK
    }

    /// Where the scan refused the block there are no groups to ask for.
    pub fn scanned(&self) -> Result<(), u32> {
        self.scanned
    }

    /// The block's length in bytes.
    pub fn length(&self) -> usize {
        self.len
    }

    /// The numbers of the block; all 0 where the scan refused it.
    pub fn head(&self) -> Head {
        let signed = |place| proved::number(&self.record, place) as i64;
        Head {
            granularity: signed(proved::RECORD_GRANULARITY),
            date_granularity: signed(proved::RECORD_DATEGRANULARITY),
            lat_offset: signed(proved::RECORD_LATOFFSET),
            lon_offset: signed(proved::RECORD_LONOFFSET),
            groups: proved::number(&self.record, proved::RECORD_GROUPS) as usize,
        }
    }

    /// What the scan says of the block's first bytes alone. It is lent no room
    /// for tables, so that it writes nothing over the rest.
    pub fn scan_front(&mut self, len: usize) -> Result<(), u32> {
        let front = self.buffer.get_mut(..len).ok_or(proved::OUTSIDE)?;
        done(proved::scan(front, len, &mut [0; proved::RECORD_SIZE]))
    }

    /// The bytes of a range; none of them where it passes the buffer.
    pub fn bytes(&self, range: Range<usize>) -> &[u8] {
        self.buffer.get(range).unwrap_or_default()
    }

    /// Where a group stands.
    pub fn group(&mut self, number: usize) -> Result<Range<usize>, u32> {
        let found = answer::<{ proved::RANGE_SIZE }>(|out| {
            proved::group(&mut self.buffer, &mut self.record, number, out)
        })?;
        Ok(range_at(&found, proved::RANGE_START, proved::RANGE_LENGTH))
    }

    /// Where the text at a number of the string table stands, as the library
    /// looks up a role; none where there is no such string.
    pub fn text_at(&mut self, number: i64) -> Option<Range<usize>> {
        let found = answer::<{ proved::RANGE_SIZE }>(|out| {
            proved::role(&mut self.buffer, &mut self.record, number as usize, out)
        });
        let found = found.ok()?;
        Some(range_at(&found, proved::RANGE_START, proved::RANGE_LENGTH))
    }

    /// A position in nanodegrees.
    pub fn nanodegrees(&mut self, (lat, lon): (i64, i64)) -> Option<(i64, i64)> {
        let found = answer::<{ proved::NANODEGREES_SIZE }>(|out| {
            proved::nanodegrees(&mut self.record, lat as usize, lon as usize, out)
        });
        let found = found.ok()?;
        let at = |place| proved::number(&found, place) as i64;
        Some((at(proved::NANODEGREES_LAT), at(proved::NANODEGREES_LON)))
    }

    /// What one of the library's views reads of a range.
    pub fn view<const N: usize>(
        &mut self,
        view: InRange,
        range: &Range<usize>,
    ) -> Result<[u8; N], u32> {
        answer(|out| view(&mut self.buffer, range.start, range.len(), out))
    }

    /// The next element of a walk, or how it ended.
    pub fn step(&mut self, walk: &mut Walk) -> Result<[u8; proved::ELEMENT_SIZE], u32> {
        answer(|out| proved::step(&mut self.buffer, &mut self.record, &mut walk.0, out))
    }

    /// The next message of one kind in a group.
    pub fn message(&mut self, messages: &mut Messages) -> Option<Range<usize>> {
        let found = answer::<{ proved::PART_SIZE }>(|out| {
            proved::message(&mut self.buffer, &mut messages.0, out)
        });
        part(&found.ok()?, 0)
    }

    /// The next tag of an element that is shown: its key and its value.
    pub fn tag(&mut self, tags: &mut Tags) -> Option<(Range<usize>, Range<usize>)> {
        let tag = answer::<{ proved::TAG_SIZE }>(|out| {
            proved::tag(&mut self.buffer, &mut self.record, &mut tags.0, out)
        });
        let tag = tag.ok()?;
        let key = range_at(&tag, proved::TAG_KEY_START, proved::TAG_KEY_LENGTH);
        let value = range_at(&tag, proved::TAG_VAL_START, proved::TAG_VAL_LENGTH);
        Some((key, value))
    }

    /// The next references of a way, or how they ended.
    pub fn references(&mut self, refs: &mut Refs) -> Result<Vec<i64>, u32> {
        let mut out = [0; BATCH * proved::REF_SIZE];
        let count = answer::<{ proved::COUNT_SIZE }>(|count| {
            proved::refs(&mut self.buffer, &mut refs.0, &mut out, count)
        })?;
        let count = proved::number(&count, 0) as usize;
        let ids = out.chunks_exact(proved::REF_SIZE).take(count);
        Ok(ids.map(|id| proved::number(id, 0) as i64).collect())
    }

    /// The next member of a relation.
    pub fn member(&mut self, members: &mut Members) -> Option<[u8; proved::MEMBER_SIZE]> {
        let found =
            answer(|out| proved::member(&mut self.buffer, &mut self.record, &mut members.0, out));
        found.ok()
    }

    /// Whether two accepted blocks list the same, or the number with which
    /// the library refuses to say.
    pub fn lists_the_same(&mut self, other: &mut Block) -> Result<bool, u32> {
        let same = answer::<{ proved::SAME_SIZE }>(|out| {
            proved::same_listing(
                &mut self.buffer,
                &mut self.record,
                &mut other.buffer,
                &mut other.record,
                out,
            )
        })?;
        Ok(proved::number(&same, 0) as usize == proved::SAME_YES)
    }
}

/// The state of a walk over a block's elements.
pub struct Walk([u8; proved::WALK_SIZE]);

impl Walk {
    /// Without metadata.
    pub fn plain() -> Walk {
        let mut state = [0; proved::WALK_SIZE];
        proved::walk(&mut state);
        Walk(state)
    }

    /// With metadata.
    pub fn full() -> Walk {
        let mut state = [0; proved::WALK_SIZE];
        proved::walk_full(&mut state);
        Walk(state)
    }
}

/// The state of an iteration over the messages of one field in a range.
pub struct Messages([u8; proved::MESSAGES_SIZE]);

impl Messages {
    /// `nuorpyts_messages_start`, which the header has inline.
    pub fn new(range: &Range<usize>, field: usize) -> Messages {
        let mut state = [0; proved::MESSAGES_SIZE];
        write(&mut state, proved::MESSAGES_PHASE, proved::PHASE_AT);
        write(&mut state, proved::MESSAGES_START, range.start);
        write(&mut state, proved::MESSAGES_LENGTH, range.len());
        write(&mut state, proved::MESSAGES_FIELD, field);
        Messages(state)
    }
}

/// The state of a walk over an element's tags.
pub struct Tags([u8; proved::TAGS_SIZE]);

impl Tags {
    pub fn of(mut element: [u8; proved::ELEMENT_SIZE]) -> Tags {
        let mut state = [0; proved::TAGS_SIZE];
        proved::start_tags(&mut element, &mut state);
        Tags(state)
    }
}

/// The state of a walk over a way's references.
pub struct Refs([u8; proved::REFS_SIZE]);

impl Refs {
    pub fn of(mut element: [u8; proved::ELEMENT_SIZE]) -> Refs {
        let mut state = [0; proved::REFS_SIZE];
        proved::start_refs(&mut element, &mut state);
        Refs(state)
    }

    /// Over any column: that of a way whose references it would be. Every
    /// column is read by the same varints, so it has as many values, and ends
    /// with the same number.
    pub fn over(column: &Range<usize>) -> Refs {
        let mut way = [0; proved::ELEMENT_SIZE];
        let refs = proved::ELEMENT_VIEW + proved::WAY_REFS;
        write(&mut way, proved::ELEMENT_KIND, proved::ELEMENT_WAY);
        write(&mut way, refs + proved::PART_PRESENT, 1);
        write(&mut way, refs + proved::PART_START, column.start);
        write(&mut way, refs + proved::PART_LENGTH, column.len());
        Refs::of(way)
    }
}

/// The state of a walk over a relation's members.
pub struct Members([u8; proved::MEMBERS_SIZE]);

impl Members {
    pub fn of(mut element: [u8; proved::ELEMENT_SIZE]) -> Members {
        let mut state = [0; proved::MEMBERS_SIZE];
        proved::start_members(&mut element, &mut state);
        Members(state)
    }
}

/// The part at a place of a view, where it is present.
pub fn part(view: &[u8], place: usize) -> Option<Range<usize>> {
    let present = proved::number(view, place + proved::PART_PRESENT) != 0;
    present.then(|| {
        range_at(
            view,
            place + proved::PART_START,
            place + proved::PART_LENGTH,
        )
    })
}

fn range_at(answer: &[u8], start: usize, len: usize) -> Range<usize> {
    let start = proved::number(answer, start) as usize;
    start..start.saturating_add(proved::number(answer, len) as usize)
}

fn write(state: &mut [u8], place: usize, number: usize) {
    state[place..place + proved::NUMBER_SIZE].copy_from_slice(&(number as u64).to_le_bytes());
}

fn answer<const N: usize>(call: impl FnOnce(&mut [u8]) -> u32) -> Result<[u8; N], u32> {
    let mut out = [0; N];
    done(call(&mut out)).map(|()| out)
}

fn done(code: u32) -> Result<(), u32> {
    match code {
        proved::OK => Ok(()),
        code => Err(code),
    }
}
