//! What is asked of both sides: a question and the bytes it is asked about.
//! A question has a name and up to six numbers, which is how it stands in the
//! fixed list.

use reader::Record;

/// The bytes behind the given ones, up to the length of a scan's buffer.
pub const FILLER: u8 = 0xa5;

/// A question about some bytes.
#[derive(Clone, Copy, Debug, PartialEq, Eq)]
pub enum Ask {
    /// The varint at a place, the field at a place, the bytes as a column.
    Varint {
        at: u64,
    },
    Field {
        at: u64,
    },
    Column,
    /// Scan of the first `len` bytes in a buffer of `room` bytes: the given
    /// ones, cut or filled up with `FILLER`.
    Scan {
        len: u64,
        room: u64,
    },
    /// String `index` of the table of `count` entries at `place`.
    Get {
        place: u64,
        count: u64,
        index: u64,
    },
    /// Group `index` of a record; the string table's place and count too,
    /// since a record outside the buffer is refused.
    Group {
        record: Places,
        index: u64,
    },
    Classify,
    Node,
    Way,
    Relation,
    Dense,
    DenseInfo,
    Info,
    DensePass,
    /// The messages of a field in a group.
    Messages {
        field: u32,
    },
    /// The check of a block that was scanned in a buffer just large enough.
    Check,
    /// All steps of a walk over such a block, with the steps over each
    /// element's tags, references and members.
    Plain,
    Full,
}

/// The places of a record.
#[derive(Clone, Copy, Debug, PartialEq, Eq)]
pub struct Places {
    pub block_len: u64,
    pub string_table: u64,
    pub string_count: u64,
    pub group_table: u64,
    pub group_count: u64,
}

/// The questions about the payload of a message or a group.
pub const PAYLOAD: [Ask; 12] = [
    Ask::Node,
    Ask::Way,
    Ask::Relation,
    Ask::Dense,
    Ask::DenseInfo,
    Ask::Info,
    Ask::DensePass,
    Ask::Messages { field: 1 },
    Ask::Messages { field: 2 },
    Ask::Messages { field: 3 },
    Ask::Messages { field: 4 },
    Ask::Classify,
];

impl Ask {
    pub fn name(&self) -> &'static str {
        match self {
            Ask::Varint { .. } => "varint",
            Ask::Field { .. } => "field",
            Ask::Column => "column",
            Ask::Scan { .. } => "scan",
            Ask::Get { .. } => "get",
            Ask::Group { .. } => "group",
            Ask::Classify => "classify",
            Ask::Node => "node",
            Ask::Way => "way",
            Ask::Relation => "relation",
            Ask::Dense => "dense",
            Ask::DenseInfo => "denseinfo",
            Ask::Info => "info",
            Ask::DensePass => "densepass",
            Ask::Messages { .. } => "messages",
            Ask::Check => "check",
            Ask::Plain => "plain",
            Ask::Full => "full",
        }
    }

    /// Whether a whole walk is asked for.
    pub fn is_walk(&self) -> bool {
        matches!(self, Ask::Plain | Ask::Full)
    }

    /// The question's numbers, in the order of its fields.
    pub fn numbers(&self) -> Vec<u64> {
        match *self {
            Ask::Varint { at } | Ask::Field { at } => vec![at],
            Ask::Scan { len, room } => vec![len, room],
            Ask::Get {
                place,
                count,
                index,
            } => vec![place, count, index],
            Ask::Group { record: r, index } => vec![
                r.block_len,
                r.string_table,
                r.string_count,
                r.group_table,
                r.group_count,
                index,
            ],
            Ask::Messages { field } => vec![u64::from(field)],
            _ => vec![],
        }
    }

    /// The question of a name and its numbers.
    pub fn parse(name: &str, numbers: &[u64]) -> Option<Ask> {
        let ask = match (name, numbers) {
            ("varint", &[at]) => Ask::Varint { at },
            ("field", &[at]) => Ask::Field { at },
            ("column", []) => Ask::Column,
            ("scan", &[len, room]) => Ask::Scan { len, room },
            ("get", &[place, count, index]) => Ask::Get {
                place,
                count,
                index,
            },
            (
                "group",
                &[
                    block_len,
                    string_table,
                    string_count,
                    group_table,
                    group_count,
                    index,
                ],
            ) => Ask::Group {
                record: Places {
                    block_len,
                    string_table,
                    string_count,
                    group_table,
                    group_count,
                },
                index,
            },
            ("messages", &[field]) => Ask::Messages {
                field: u32::try_from(field).ok()?,
            },
            ("classify", []) => Ask::Classify,
            ("node", []) => Ask::Node,
            ("way", []) => Ask::Way,
            ("relation", []) => Ask::Relation,
            ("dense", []) => Ask::Dense,
            ("denseinfo", []) => Ask::DenseInfo,
            ("info", []) => Ask::Info,
            ("densepass", []) => Ask::DensePass,
            ("check", []) => Ask::Check,
            ("plain", []) => Ask::Plain,
            ("full", []) => Ask::Full,
            _ => return None,
        };
        Some(ask)
    }
}

/// The buffer that a scan is asked about.
pub fn scan_buffer(bytes: &[u8], room: u64) -> Vec<u8> {
    let mut buffer = bytes.to_vec();
    buffer.resize(room as usize, FILLER);
    buffer
}

/// Questions about strings and groups at the ends of a record's tables.
pub fn lookups(record: &Record) -> Vec<Ask> {
    let places = Places {
        block_len: record.block_len,
        string_table: record.string_table,
        string_count: record.string_count,
        group_table: record.group_table,
        group_count: record.group_count,
    };
    let (place, count) = (record.string_table, record.string_count);
    let strings = ends(count).into_iter().map(|index| Ask::Get {
        place,
        count,
        index,
    });
    let groups = ends(record.group_count).into_iter();
    strings
        .chain(groups.map(|index| Ask::Group {
            record: places,
            index,
        }))
        .collect()
}

/// The same questions about records that no scan gave: tables that begin a
/// byte or half an entry early, so that other bytes stand for places and
/// lengths, and counts that are one too large.
pub fn strange_lookups(record: &Record) -> Vec<Ask> {
    let early = |by| Record {
        string_table: record.string_table.saturating_sub(by),
        group_table: record.group_table.saturating_sub(by),
        ..*record
    };
    let more = Record {
        string_count: record.string_count + 1,
        group_count: record.group_count + 1,
        ..*record
    };
    [early(1), early(4), more]
        .iter()
        .flat_map(lookups)
        .collect()
}

/// The first and last index below a count, and the count.
fn ends(count: u64) -> Vec<u64> {
    let mut ends = vec![0, count.saturating_sub(1), count];
    ends.dedup();
    ends
}
