//! The kinds of messages in a group, and the columns of metadata: by which
//! view they are read, and where that view has what the check reads of them.

use proved::InRange;

/// The view of one kind of element, and where it has what all kinds have.
pub struct Kind {
    pub name: &'static str,
    pub field: usize,
    pub view: InRange,
    pub id: usize,
    pub info: usize,
    pub keys: usize,
    pub vals: usize,
    /// The columns of this kind alone, which have equal counts.
    pub others: &'static [(&'static str, usize)],
}

/// In the order in which a group is checked.
pub const KINDS: [Kind; 3] = [
    Kind {
        name: "node",
        field: proved::FIELD_NODE,
        view: proved::node,
        id: proved::NODE_ID,
        info: proved::NODE_INFO,
        keys: proved::NODE_KEYS,
        vals: proved::NODE_VALS,
        others: &[],
    },
    Kind {
        name: "way",
        field: proved::FIELD_WAY,
        view: proved::way,
        id: proved::WAY_ID,
        info: proved::WAY_INFO,
        keys: proved::WAY_KEYS,
        vals: proved::WAY_VALS,
        others: &[("refs", proved::WAY_REFS)],
    },
    Kind {
        name: "relation",
        field: proved::FIELD_RELATION,
        view: proved::relation,
        id: proved::RELATION_ID,
        info: proved::RELATION_INFO,
        keys: proved::RELATION_KEYS,
        vals: proved::RELATION_VALS,
        others: &[
            ("roles", proved::RELATION_ROLES),
            ("memids", proved::RELATION_MEMIDS),
            ("types", proved::RELATION_TYPES),
        ],
    },
];

/// The columns of a DenseInfo, in the order in which they are checked.
pub const DENSE_INFO_COLUMNS: [(&str, usize); 6] = [
    ("version", proved::DENSE_INFO_VERSION),
    ("timestamp", proved::DENSE_INFO_TIMESTAMP),
    ("changeset", proved::DENSE_INFO_CHANGESET),
    ("uid", proved::DENSE_INFO_UID),
    ("user_sid", proved::DENSE_INFO_USER_SID),
    ("visible", proved::DENSE_INFO_VISIBLE),
];
