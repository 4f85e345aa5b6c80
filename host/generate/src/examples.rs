//! The blocks of document 01's field examples and of the choices that its
//! reading order leaves, as small hand-made blocks.

use crate::encode::len_field;

/// The examples as blocks, payloads of messages wrapped into one.
pub fn examples() -> Vec<Vec<u8>> {
    let mut blocks = top_level();
    blocks.extend(groups().into_iter().map(|group| len_field(2, &group)));
    blocks.extend(tagged().into_iter().map(|group| {
        let strings: Vec<u8> = [b"", &b"1"[..], b"2", b"3", b"4"]
            .iter()
            .flat_map(|text| len_field(1, text))
            .collect();
        [len_field(1, &strings), len_field(2, &group)].concat()
    }));
    blocks
}

/// Examples 1 to 6 and their neighbours.
fn top_level() -> Vec<Vec<u8>> {
    let two_strings: &[u8] = &[0x0A, 0x05, 0x0A, 0x00, 0x0A, 0x01, 0x61, 0x12, 0x00];
    let plain: [&[u8]; 22] = [
        &[],
        two_strings,
        &[0x88, 0x01, 0xFF, 0xFF, 0xFF, 0xFF, 0x07],
        &[0x88, 0x01, 0x80, 0x80, 0x80, 0x80, 0x08],
        &[0x90, 0x01, 0xFF, 0xFF, 0xFF, 0xFF, 0x0F],
        &[0x0A],
        &[0x0A, 0x01],
        &[0x07],
        &[0x0E],
        &[0x0C],
        &[0x0B, 0x0C],
        &[0x0B],
        &[0x0B, 0x14],
        &[0x0B, 0x80],
        &[0x0B, 0x13, 0x0C, 0x14],
        &[0x0B; 17],
        &[0xFF; 10],
        &[0x86, 0x80, 0x80, 0x80, 0x10],
        &[0x0A, 0x01, 0x07],
        &[0x0A, 0x01, 0x07, 0x0A, 0x00],
        &[0x8A, 0x80, 0x00, 0x00],
        &[
            0x88, 0x01, 0x80, 0x80, 0x80, 0x80, 0x80, 0x80, 0x80, 0x80, 0x80, 0x7E,
        ],
    ];
    let mut blocks: Vec<Vec<u8>> = plain.iter().map(|block| block.to_vec()).collect();
    blocks.push([two_strings, &[0x0A, 0x00]].concat());
    blocks.push([[0x0B; 16], [0x0C; 16]].concat());
    blocks
}

/// Examples 7 to 11 and their neighbours, as groups.
fn groups() -> Vec<Vec<u8>> {
    let largest_id = [
        0xFE, 0xFF, 0xFF, 0xFF, 0xFF, 0xFF, 0xFF, 0xFF, 0xFF, 0x01, 0x02,
    ];
    let ways: [&[u8]; 6] = [
        &[0x42, 0x03, 0x02, 0x02, 0x01],
        &[0x08, 0x07, 0x42, 0x01, 0x02, 0x42, 0x01, 0x02],
        &[0x08, 0x07, 0x42, 0x00, 0x42, 0x01, 0x02, 0x42, 0x00],
        &[0x08, 0x07, 0x40, 0x02],
        &[0x22, 0x06, 0x08, 0xFF, 0xFF, 0xFF, 0xFF, 0x0F],
        &[0x22, 0x02, 0x08, 0x01, 0x22, 0x02, 0x08, 0x01],
    ];
    let mut groups: Vec<Vec<u8>> = ways.iter().map(|way| len_field(3, way)).collect();
    groups.push(dense(&largest_id, &[0, 0], &[]));
    groups.push(dense(&[2, 2], &[0], &[]));
    for second in [&[0x12, 0x00][..], &[0x12, 0x05], &[0x12], &[0x12, 0x80]] {
        groups.push([&[0x12, 0x00], second].concat());
    }
    groups
}

/// Example 12 and its neighbours: two dense nodes with these keys_vals.
fn tagged() -> Vec<Vec<u8>> {
    let keys_vals: [&[u8]; 7] = [
        &[1, 2, 0, 3, 4],
        &[0, 1],
        &[1, 0, 2, 3, 0],
        &[0x80, 0x80, 0x80, 0x80, 0x10, 1, 0, 1, 2],
        &[0x80, 0x00, 1, 2],
        &[0, 0, 0x80],
        &[1, 9, 1, 2],
    ];
    keys_vals
        .iter()
        .map(|column| dense(&[2, 2], &[0, 0], column))
        .collect()
}

/// A dense field with these ids, the same column as lats and lons, keys_vals.
fn dense(ids: &[u8], positions: &[u8], keys_vals: &[u8]) -> Vec<u8> {
    let columns = [
        len_field(1, ids),
        len_field(8, positions),
        len_field(9, positions),
        len_field(10, keys_vals),
    ];
    len_field(2, &columns.concat())
}
