//! The rows of a dense message: one state that holds a place in each column
//! and the running sums, and hands out node after node.

use crate::column::{boolean, int32, sint32, sint64, Column};
use crate::number::{Refusal, COUNTS_DIFFER};
use crate::subwalk::next_pair;
use crate::views::{DenseInfo, DenseNodes};

/// The state of a walk over a dense message.
#[derive(Clone, Copy, Debug, Default, PartialEq, Eq)]
pub struct DenseRows {
    pub ids: Column,
    pub lats: Column,
    pub lons: Column,
    pub keys_vals: Column,
    pub id: i64,
    pub lat: i64,
    pub lon: i64,
    pub info: InfoRows,
}

/// The state over the six info columns.
#[derive(Clone, Copy, Debug, Default, PartialEq, Eq)]
pub struct InfoRows {
    pub versions: Column,
    pub timestamps: Column,
    pub changesets: Column,
    pub uids: Column,
    pub user_sids: Column,
    pub visibles: Column,
    pub timestamp: i64,
    pub changeset: i64,
    pub uid: i32,
    pub user_sid: i32,
}

/// One dense node: running sums, keys_vals from its first pair on, and its info
/// where the walk is full and the five columns have a value.
#[derive(Clone, Copy, Debug, PartialEq, Eq)]
pub struct DenseRow {
    pub id: i64,
    pub lat: i64,
    pub lon: i64,
    pub tags: Column,
    pub info: Option<DenseNodeInfo>,
}

/// The info of a dense node; all but version and visible are running sums.
#[derive(Clone, Copy, Debug, PartialEq, Eq)]
pub struct DenseNodeInfo {
    pub version: i32,
    pub timestamp: i64,
    pub changeset: i64,
    pub uid: i32,
    pub user_sid: i32,
    pub visible: bool,
}

impl DenseRows {
    /// Before the first node. A plain walk hands in an info without columns.
    pub fn new(dense: &DenseNodes, info: &DenseInfo) -> DenseRows {
        DenseRows {
            ids: Column::of(dense.ids),
            lats: Column::of(dense.lats),
            lons: Column::of(dense.lons),
            keys_vals: Column::of(dense.keys_vals),
            info: InfoRows::new(info),
            ..DenseRows::default()
        }
    }

    pub fn is_inside(&self, buffer: &[u8]) -> bool {
        [self.ids, self.lats, self.lons, self.keys_vals]
            .iter()
            .all(|c| c.is_inside(buffer))
            && self.info.is_inside(buffer)
    }

    /// The next node. All three columns and the info row are read before the
    /// end or 12 is told, so that a bad varint there comes first.
    pub fn next(&mut self, buffer: &[u8], full: bool) -> Result<Option<DenseRow>, Refusal> {
        let id = self.ids.next(buffer)?.map(sint64);
        let lat = self.lats.next(buffer)?.map(sint64);
        let lon = self.lons.next(buffer)?.map(sint64);
        let info = if full { self.info.next(buffer)? } else { None };
        let (id, lat, lon) = match (id, lat, lon) {
            (None, None, None) => return Ok(None),
            (Some(id), Some(lat), Some(lon)) => (id, lat, lon),
            _ => return Err(COUNTS_DIFFER),
        };
        self.id = self.id.wrapping_add(id);
        self.lat = self.lat.wrapping_add(lat);
        self.lon = self.lon.wrapping_add(lon);
        let tags = self.keys_vals;
        take_pairs(buffer, &mut self.keys_vals)?;
        Ok(Some(DenseRow {
            id: self.id,
            lat: self.lat,
            lon: self.lon,
            tags,
            info,
        }))
    }
}

/// Takes one node's pairs and their closing 0.
pub(crate) fn take_pairs(buffer: &[u8], keys_vals: &mut Column) -> Result<(), Refusal> {
    while next_pair(buffer, keys_vals)?.is_some() {}
    Ok(())
}

impl InfoRows {
    fn new(info: &DenseInfo) -> InfoRows {
        InfoRows {
            versions: Column::of(info.versions),
            timestamps: Column::of(info.timestamps),
            changesets: Column::of(info.changesets),
            uids: Column::of(info.uids),
            user_sids: Column::of(info.user_sids),
            visibles: Column::of(info.visibles),
            ..InfoRows::default()
        }
    }

    fn is_inside(&self, buffer: &[u8]) -> bool {
        [self.versions, self.timestamps, self.changesets]
            .iter()
            .all(|c| c.is_inside(buffer))
            && [self.uids, self.user_sids, self.visibles]
                .iter()
                .all(|c| c.is_inside(buffer))
    }

    /// The next row: each column is read only while those before it had a
    /// value; visible is true where its column has ended.
    fn next(&mut self, buffer: &[u8]) -> Result<Option<DenseNodeInfo>, Refusal> {
        let Some(version) = self.versions.next(buffer)? else {
            return Ok(None);
        };
        let Some(timestamp) = self.timestamps.next(buffer)? else {
            return Ok(None);
        };
        self.timestamp = self.timestamp.wrapping_add(sint64(timestamp));
        let Some(changeset) = self.changesets.next(buffer)? else {
            return Ok(None);
        };
        self.changeset = self.changeset.wrapping_add(sint64(changeset));
        let Some(uid) = self.uids.next(buffer)? else {
            return Ok(None);
        };
        self.uid = self.uid.wrapping_add(sint32(uid));
        let Some(user_sid) = self.user_sids.next(buffer)? else {
            return Ok(None);
        };
        self.user_sid = self.user_sid.wrapping_add(sint32(user_sid));
        let visible = self.visibles.next(buffer)?.is_none_or(boolean);
        Ok(Some(DenseNodeInfo {
            version: int32(version),
            timestamp: self.timestamp,
            changeset: self.changeset,
            uid: self.uid,
            user_sid: self.user_sid,
            visible,
        }))
    }
}
