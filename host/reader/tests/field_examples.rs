//! Every field example of document 01, starred and not, by its number there.

mod common;
use common::*;
use reader::column::sint64;
use reader::wire::read_varint;
use reader::*;

const TWO_STRINGS: [u8; 9] = [0x0A, 0x05, 0x0A, 0x00, 0x0A, 0x01, 0x61, 0x12, 0x00];

fn refs_of(way: &[u8]) -> Result<Vec<i64>, Refusal> {
    let way = Way::read(way, 0, way.len()).map(|view| (way, view))?;
    let mut state = Refs::of(&way.1);
    let mut found = Vec::new();
    loop {
        let (answer, next) = refs_step(way.0, state);
        state = next;
        match answer {
            Answer::Item(id) => found.push(id),
            Answer::Ended => return Ok(found),
            Answer::Refused(number) => return Err(number),
        }
    }
}

#[test]
fn example_1_empty_block() {
    let mut nothing = [];
    let record = scan(&mut nothing, 0).unwrap();
    let expected = Record {
        block_len: 0,
        string_count: 0,
        string_table: 0,
        group_count: 0,
        group_table: 0,
        granularity: 100,
        date_granularity: 1000,
        lat_offset: 0,
        lon_offset: 0,
    };
    assert_eq!(record, expected);
    assert_eq!(check(&nothing, &record), Ok(()));
    assert_eq!(get(&nothing, &record, 0), Got::None);
    assert_eq!(group(&nothing, &record, 0), Err(14));
}

#[test]
fn example_2_tables() {
    let mut buffer = [0u8; 33];
    buffer[..9].copy_from_slice(&TWO_STRINGS);
    let record = scan(&mut buffer, 9).unwrap();
    assert_eq!((record.string_count, record.group_count), (2, 1));
    assert_eq!((record.string_table, record.group_table), (9, 25));
    let tables = [
        4, 0, 0, 0, 0, 0, 0, 0, 6, 0, 0, 0, 1, 0, 0, 0, 9, 0, 0, 0, 0, 0, 0, 0,
    ];
    assert_eq!(buffer[..9], TWO_STRINGS);
    assert_eq!(buffer[9..], tables);
    assert_eq!(get(&buffer, &record, 0), Got::Text(4, 0));
    assert_eq!(get(&buffer, &record, 1), Got::Text(6, 1));
    assert_eq!(get(&buffer, &record, 2), Got::None);
    assert_eq!(group(&buffer, &record, 0), Ok((9, 0)));
    assert_eq!(group(&buffer, &record, 1), Err(14));
    assert_eq!(check(&buffer, &record), Ok(()));
}

#[test]
fn example_2_one_byte_short() {
    let mut buffer = [0xEEu8; 32];
    buffer[..9].copy_from_slice(&TWO_STRINGS);
    let before = buffer;
    assert_eq!(scan(&mut buffer, 9), Err(13));
    assert_eq!(buffer, before);
}

#[test]
fn example_2_bytes_behind_the_tables_stay() {
    let mut buffer = [0xEEu8; 40];
    buffer[..9].copy_from_slice(&TWO_STRINGS);
    scan(&mut buffer, 9).unwrap();
    assert_eq!(buffer[33..], [0xEE; 7]);
}

#[test]
fn example_3_the_last_string_table_wins() {
    let block = join(&[&TWO_STRINGS, &[0x0A, 0x00]]);
    let (buffer, record) = scanned(&block).unwrap();
    assert_eq!((record.string_count, record.group_count), (0, 1));
    assert_eq!(record.group_table, 11);
    assert_eq!(get(&buffer, &record, 0), Got::None);
}

#[test]
fn example_4_granularity() {
    let (_, record) = scanned(&[0x88, 0x01, 0xFF, 0xFF, 0xFF, 0xFF, 0x07]).unwrap();
    assert_eq!(record.granularity, 2_147_483_647);
    assert_eq!(accept(&[0x88, 0x01, 0x80, 0x80, 0x80, 0x80, 0x08]), Err(8));
}

#[test]
fn example_5_top_level_refusals() {
    assert_eq!(accept(&[0x0A]), Err(2));
    assert_eq!(accept(&[0x0A, 0x01]), Err(6));
    assert_eq!(accept(&[0x07]), Err(4));
    assert_eq!(accept(&[0x0E]), Err(5));
    assert_eq!(accept(&[0x0C]), Err(5));
}

#[test]
fn example_6_skipped_groups() {
    assert_eq!(accept(&[0x0B, 0x0C]), Ok(()));
    assert_eq!(accept(&[0x0B]), Err(6));
    assert_eq!(accept(&[0x0B, 0x14]), Err(5));
    assert_eq!(accept(&join(&[&[0x0B; 16], &[0x0C; 16]])), Ok(()));
    assert_eq!(accept(&[0x0B; 17]), Err(7));
}

#[test]
fn example_7_references() {
    let way = field(8, &[0x02, 0x02, 0x01]);
    assert_eq!(refs_of(&way), Ok(vec![1, 2, 1]));
}

#[test]
fn example_8_wrapping_ids() {
    let ids = [
        0xFE, 0xFF, 0xFF, 0xFF, 0xFF, 0xFF, 0xFF, 0xFF, 0xFF, 0x01, 0x02,
    ];
    let dense = join(&[&field(1, &ids), &field(8, &[0, 0]), &field(9, &[0, 0])]);
    let [(elements, ended), _] = walks(&block_of(&field(2, &dense)));
    assert_eq!(ended, 0);
    let ids: Vec<i64> = elements.iter().map(id_of).collect();
    assert_eq!(ids, [i64::MAX, i64::MIN]);
}

fn id_of(element: &Element) -> i64 {
    match element.body {
        Body::Dense(node) => node.id,
        Body::Node(node) => node.id,
        Body::Way(way) => way.id,
        Body::Relation(relation) => relation.id,
    }
}

#[test]
fn example_9_second_columns() {
    assert_eq!(
        refs_of(&[0x08, 0x07, 0x42, 0x01, 0x02, 0x42, 0x01, 0x02]),
        Err(9)
    );
    let empties = [0x08, 0x07, 0x42, 0x00, 0x42, 0x01, 0x02, 0x42, 0x00];
    assert_eq!(refs_of(&empties), Ok(vec![1]));
    assert_eq!(refs_of(&[0x08, 0x07, 0x40, 0x02]), Ok(vec![1]));
    let view = Way::read(&[0x08, 0x07, 0x40, 0x02], 0, 4).unwrap();
    assert_eq!((view.id, view.refs), (7, Part::at(3, 1)));
}

#[test]
fn example_10_second_dense() {
    assert_eq!(dense_pass(&[0x12, 0x00, 0x12, 0x00], 0, 4), Err(11));
    assert_eq!(accept(&block_of(&[0x12, 0x00, 0x12, 0x00])), Err(11));
}

#[test]
fn example_11_version_absent() {
    let info = Info::read(&[0x08, 0xFF, 0xFF, 0xFF, 0xFF, 0x0F], 0, 6).unwrap();
    assert_eq!(info, Info::default());
}

#[test]
fn example_12_dense_tags() {
    let tags_of = |keys_vals: &[u8]| {
        let block = join(&[
            &strings(&["0", "1", "2", "3", "4"]),
            &block_of(&dense_of(keys_vals)),
        ]);
        accept(&block)?;
        let listing = listing(&block)?;
        Ok(listing
            .elements
            .iter()
            .map(|e| {
                e.tags
                    .iter()
                    .map(|t| (t.0[0] - b'0', t.1[0] - b'0'))
                    .collect()
            })
            .collect::<Vec<Vec<(u8, u8)>>>())
    };
    assert_eq!(
        tags_of(&[1, 2, 0, 3, 4]),
        Ok(vec![vec![(1, 2)], vec![(3, 4)]])
    );
    assert_eq!(tags_of(&[0, 1]), Err(2));
}

/// A dense field of two nodes with these keys_vals.
fn dense_of(keys_vals: &[u8]) -> Vec<u8> {
    let columns = [
        field(1, &[2, 2]),
        field(8, &[0, 0]),
        field(9, &[0, 0]),
        field(10, keys_vals),
    ];
    field(2, &columns.concat())
}

#[test]
fn the_unstarred_examples() {
    assert_eq!(read_varint(&[0xFF; 10], 0), Err(3));
    assert_eq!(accept(&[0xFF; 10]), Err(3));
    assert_eq!(sint64(u64::MAX), i64::MIN);
    assert_eq!(sint64(u64::MAX - 1), i64::MAX);
}
