//! The differences that docs/DIFFERENCES.md explains and that a comparison can
//! meet, each with its smallest input. A difference of any other kind is
//! unexplained; and so is one that its own smallest input no longer shows.

/// A kind of difference.
pub struct Known {
    pub kind: &'static str,
    /// A group for the message iterator, else a block.
    pub smallest: &'static str,
}

/// The message iterator, asked again after its first none, goes on.
pub const GOES_ON: &str = "message iterator goes on after its quiet end";

/// Besides it: what `validate_groups` says of a block that the check accepts.
/// Its numbers 2 and 3 are about bytes that the check leaves unread.
pub const KNOWN: [Known; 15] = [
    known(GOES_ON, "x0a0a00"),
    known("validate_groups: 2", "x12051203520180"),
    known("validate_groups: 3", "x120e120c520affffffffffffffffffff"),
    known(
        "validate_groups: packed varint array ends mid-varint",
        "x12051a034a0180",
    ),
    known(
        "validate_groups: packed varint array holds a varint wider than 64 bits",
        "x120d1a0b4080808080808080808002",
    ),
    known(
        "validate_groups: tag string index exceeds uint32",
        "x120a0a081080808080101800",
    ),
    known(
        "validate_groups: dense tag string index exceeds int32",
        "x12081206508080808008",
    ),
    known(
        "validate_groups: dense keys_vals ends with a key that has no value",
        "x120412025001",
    ),
    known(
        "validate_groups: dense keys_vals describes a different number of nodes than the id array",
        "x120412025000",
    ),
    known(
        "validate_groups: dense denseinfo array length does not match the id array",
        "x120612042a020800",
    ),
    known(
        "validate_groups: dense denseinfo has some but not all of its parallel arrays",
        "x120c120a0800400048002a020800",
    ),
    known(
        "validate_groups: dense denseinfo visible array length does not match the id array",
        "x120612042a023000",
    ),
    known(
        "validate_groups: dense denseinfo has a visible array but no metadata arrays",
        "x120c120a0800400048002a023000",
    ),
    known(
        "validate_groups: way has mismatched lat/lon node-location array lengths",
        "x12041a024800",
    ),
    known(
        "validate_groups: way has a node-location count that disagrees with its node-reference count",
        "x12061a0448005000",
    ),
];

const fn known(kind: &'static str, smallest: &'static str) -> Known {
    Known { kind, smallest }
}
