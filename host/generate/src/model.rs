//! What a block holds before it is spelled. Values are raw 64-bit varint
//! values, so that numbers which a reader has to cut can be written too.

/// A PrimitiveBlock; what is absent is not written.
#[derive(Clone, Debug, Default, PartialEq, Eq)]
pub struct Block {
    pub strings: Vec<Vec<u8>>,
    pub groups: Vec<Group>,
    /// Fields 17 to 20: granularity, date granularity, both offsets.
    pub scalars: [Option<u64>; 4],
}

/// A PrimitiveGroup.
#[derive(Clone, Debug, Default, PartialEq, Eq)]
pub struct Group {
    pub dense: Option<Dense>,
    pub nodes: Vec<Node>,
    pub ways: Vec<Way>,
    pub relations: Vec<Relation>,
}

/// A dense message: stored differences, and keys_vals as stored.
#[derive(Clone, Debug, Default, PartialEq, Eq)]
pub struct Dense {
    pub ids: Vec<u64>,
    pub lats: Vec<u64>,
    pub lons: Vec<u64>,
    pub keys_vals: Vec<u64>,
    pub info: Option<[Vec<u64>; 6]>,
}

/// The six fields of Info.
pub type Info = [Option<u64>; 6];

/// The fields that nodes, ways and relations share.
#[derive(Clone, Debug, Default, PartialEq, Eq)]
pub struct Common {
    pub id: Option<u64>,
    pub keys: Vec<u64>,
    pub vals: Vec<u64>,
    pub info: Option<Info>,
}

/// A loose node.
#[derive(Clone, Debug, Default, PartialEq, Eq)]
pub struct Node {
    pub common: Common,
    pub lat: Option<u64>,
    pub lon: Option<u64>,
}

/// A way.
#[derive(Clone, Debug, Default, PartialEq, Eq)]
pub struct Way {
    pub common: Common,
    pub refs: Vec<u64>,
    pub lats: Vec<u64>,
    pub lons: Vec<u64>,
    pub pins: Option<Vec<u8>>,
}

/// A relation.
#[derive(Clone, Debug, Default, PartialEq, Eq)]
pub struct Relation {
    pub common: Common,
    pub roles: Vec<u64>,
    pub memids: Vec<u64>,
    pub types: Vec<u64>,
}

/// The kinds of messages that are spelled.
#[derive(Clone, Copy, Debug, PartialEq, Eq)]
pub enum Message {
    Block,
    StringTable,
    Group,
    Node,
    Way,
    Relation,
    DenseNodes,
    DenseInfo,
    Info,
}

/// All kinds, for callers that try each.
pub const MESSAGES: [Message; 9] = [
    Message::Block,
    Message::StringTable,
    Message::Group,
    Message::Node,
    Message::Way,
    Message::Relation,
    Message::DenseNodes,
    Message::DenseInfo,
    Message::Info,
];

impl Message {
    /// Fields that are a single varint.
    pub fn scalars(self) -> &'static [u32] {
        match self {
            Message::Block => &[17, 18, 19, 20],
            Message::Node => &[1, 8, 9],
            Message::Way | Message::Relation => &[1],
            Message::Info => &[1, 2, 3, 4, 5, 6],
            _ => &[],
        }
    }

    /// Fields that are columns.
    pub fn columns(self) -> &'static [u32] {
        match self {
            Message::Node => &[2, 3],
            Message::Way | Message::Relation => &[2, 3, 8, 9, 10],
            Message::DenseNodes => &[1, 8, 9, 10],
            Message::DenseInfo => &[1, 2, 3, 4, 5, 6],
            _ => &[],
        }
    }

    /// Fields that are messages, strings or bytes.
    pub fn parts(self) -> &'static [u32] {
        match self {
            Message::Block => &[1, 2],
            Message::StringTable => &[1],
            Message::Group => &[1, 2, 3, 4],
            Message::Node | Message::Relation => &[4],
            Message::Way => &[4, 20],
            Message::DenseNodes => &[5],
            Message::DenseInfo | Message::Info => &[],
        }
    }

    /// The field of Info or DenseInfo, where the message has one.
    pub fn info(self) -> Option<u32> {
        match self {
            Message::Node | Message::Way | Message::Relation => Some(4),
            Message::DenseNodes => Some(5),
            _ => None,
        }
    }

    /// Whether a view of this message takes the pair of field and wire type.
    pub fn takes(self, field: u32, wire: u8) -> bool {
        match wire {
            0 => self.scalars().contains(&field) || self.columns().contains(&field),
            2 => self.parts().contains(&field) || self.columns().contains(&field),
            _ => false,
        }
    }
}
