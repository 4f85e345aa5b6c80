//! Which number comes first: the order of tests at the leaf, in the scan, in
//! the views and in the check, and the places where 14 is or is not given.

mod common;
use common::*;
use reader::wire::{read_payload, read_tag, read_varint, skip, Tag, LEN, VARINT};
use reader::*;

#[test]
fn varint_places_and_lengths() {
    assert_eq!(read_varint(&[], 0), Err(2));
    assert_eq!(read_varint(&[1], 1), Err(2));
    assert_eq!(read_varint(&[1], 2), Err(14));
    assert_eq!(read_varint(&[0x80; 9], 0), Err(2));
    assert_eq!(read_varint(&[0x80; 10], 0), Err(3));
    assert_eq!(read_varint(&[0x80; 11], 1), Err(3));
    let eleven = join(&[&[0x80; 10], &[0x01]]);
    assert_eq!(read_varint(&eleven, 0), Err(3));
    assert_eq!(read_varint(&[0x80, 0x00, 5], 0), Ok((0, 2)));
    let overlong = [0x81, 0x80, 0x80, 0x80, 0x80, 0x80, 0x80, 0x80, 0x80, 0x00];
    assert_eq!(read_varint(&overlong, 0), Ok((1, 10)));
}

#[test]
fn the_tenth_byte_keeps_its_lowest_bit() {
    let mut bytes = [0x80u8; 10];
    for (tenth, value) in [
        (0x00, 0),
        (0x01, 1 << 63),
        (0x7E, 0),
        (0x7F, 1 << 63),
        (0x03, 1 << 63),
    ] {
        bytes[9] = tenth;
        assert_eq!(read_varint(&bytes, 0), Ok((value, 10)));
    }
}

#[test]
fn tags() {
    assert_eq!(read_tag(&[0x00], 0), Err(4));
    assert_eq!(read_tag(&[0x06], 0), Err(4));
    assert_eq!(read_tag(&[0x0E], 0), Ok((Tag { field: 1, wire: 6 }, 1)));
    let largest = [0xFF, 0xFF, 0xFF, 0xFF, 0x0F];
    assert_eq!(
        read_tag(&largest, 0),
        Ok((
            Tag {
                field: 536_870_911,
                wire: 7
            },
            5
        ))
    );
    assert_eq!(read_tag(&[0x80, 0x80, 0x80, 0x80, 0x10], 0), Err(4));
    assert_eq!(
        accept(&[0x86, 0x80, 0x80, 0x80, 0x10]),
        Err(4),
        "4 before 5"
    );
    assert_eq!(accept(&largest), Err(5));
    assert_eq!(
        accept(&[0x8A, 0x80, 0x00, 0x00]),
        Ok(()),
        "an overlong tag is legal"
    );
}

#[test]
fn payloads_at_the_end_and_past_it() {
    let tag = |wire| Tag { field: 1, wire };
    for wire in 0..8 {
        assert_eq!(skip(&[1, 2], tag(wire), 3), Err(14));
    }
    assert_eq!(skip(&[], tag(VARINT), 0), Err(2));
    assert_eq!(skip(&[], tag(LEN), 0), Err(2));
    assert_eq!(skip(&[0; 7], tag(1), 0), Err(6));
    assert_eq!(skip(&[0; 8], tag(1), 0), Ok(8));
    assert_eq!(skip(&[0; 3], tag(5), 0), Err(6));
    assert_eq!(skip(&[0; 4], tag(5), 0), Ok(4));
    assert_eq!(skip(&[], tag(3), 0), Err(6));
    assert_eq!(skip(&[], tag(4), 0), Err(5));
    let huge = [0xFF, 0xFF, 0xFF, 0xFF, 0xFF, 0xFF, 0xFF, 0xFF, 0xFF, 0x01];
    assert_eq!(skip(&huge, tag(LEN), 0), Err(6));
    let (field, next) = read_payload(&[0x80, 0x00, 9], tag(VARINT), 0).unwrap();
    assert_eq!((field.value, field.start, field.len, next), (0, 0, 2, 2));
}

#[test]
fn inside_a_skipped_group() {
    assert_eq!(accept(&[0x0B, 0x80]), Err(2), "the bytes end in a varint");
    assert_eq!(
        accept(&[0x0B, 0x08]),
        Err(2),
        "the bytes end before a due one"
    );
    assert_eq!(accept(&[0x0B, 0x12]), Err(2));
    assert_eq!(accept(&[0x0B, 0x12, 0x05]), Err(6));
    assert_eq!(accept(&[0x0B, 0x07]), Err(4));
    assert_eq!(accept(&[0x0B, 0x0E]), Err(5));
    assert_eq!(accept(&[0x0B, 0x13, 0x0C, 0x14]), Err(5), "crossed ends");
    assert_eq!(accept(&[0x0B, 0x13, 0x14, 0x0C]), Ok(()));
    let seventeenth_cut = join(&[&[0x0B; 16], &[0x80]]);
    assert_eq!(
        accept(&seventeenth_cut),
        Err(2),
        "its tag has not been read"
    );
    let beside = join(&[&[0x0B; 16], &[0x0C], &[0x0B, 0x0C], &[0x0C; 15]]);
    assert_eq!(accept(&beside), Ok(()), "seventeen in all, sixteen at once");
}

#[test]
fn scan_order() {
    let mut buffer = vec![0u8; 4];
    assert_eq!(scan(&mut buffer, 5), Err(14));
    assert_eq!(scan(&mut buffer, 33_554_433), Err(14), "14 before 1");
    assert_eq!(scan(&mut buffer, u64::MAX), Err(14));
    // A bad field at the end comes before a bad string table, that before 13.
    assert_eq!(scan(&mut [0x0A, 0x01, 0x07, 0x12], 4), Err(2));
    assert_eq!(scan(&mut [0x0A, 0x01, 0x07, 0x12, 0x00], 5), Err(4));
    assert_eq!(scan(&mut [0x0A, 0x00, 0x12, 0x00], 4), Err(13));
    // An earlier string table is not read inside.
    assert_eq!(accept(&[0x0A, 0x01, 0x07, 0x0A, 0x00]), Ok(()));
    // 8 of an earlier granularity, though a later one wins.
    assert_eq!(
        accept(&[0x88, 0x01, 0x80, 0x80, 0x80, 0x80, 0x08, 0x88, 0x01, 0x01]),
        Err(8)
    );
}

#[test]
fn the_longest_block() {
    let mut buffer = vec![0u8; 33_554_433];
    let len = 33_554_432 - 5;
    buffer[..5].copy_from_slice(&[0x7A, 0x80 | (len & 0x7F) as u8, 0xFF, 0xFF, 0x0F]);
    assert_eq!(len >> 7, 0x7F | 0x7F << 7 | 0x0F << 14);
    assert_eq!(scan(&mut buffer, 33_554_433), Err(1));
    assert_eq!(
        scan(&mut buffer, 33_554_432).map(|r| r.block_len),
        Ok(33_554_432)
    );
}

#[test]
fn signed_granularities_and_offsets() {
    let minus_one = [0xFF, 0xFF, 0xFF, 0xFF, 0xFF, 0xFF, 0xFF, 0xFF, 0xFF, 0x01];
    let block = join(&[&[0x88, 0x01], &minus_one, &[0x98, 0x01], &minus_one]);
    let (_, record) = scanned(&block).unwrap();
    assert_eq!(
        (record.granularity, record.lat_offset, record.lon_offset),
        (-1, -1, 0)
    );
    let low_bits_only = [0x90, 0x01, 0xFF, 0xFF, 0xFF, 0xFF, 0x0F];
    assert_eq!(
        accept(&low_bits_only),
        Err(8),
        "date granularity is not cut"
    );
    assert_eq!(
        accept(&[0x8A, 0x01, 0x01, 0x05]),
        Ok(()),
        "another wire type is skipped"
    );
}

#[test]
fn second_dense_comes_before_its_payload() {
    for tail in [
        &[0x12, 0x05][..],
        &[0x12],
        &[0x12, 0x80],
        &[0x12, 0x00],
        &[0x92, 0x00],
    ] {
        let group = join(&[&[0x12, 0x00], tail]);
        assert_eq!(dense_pass(&group, 0, group.len()), Err(11), "{group:02X?}");
        assert_eq!(accept(&block_of(&group)), Err(11));
    }
    let other_pair = [0x12, 0x00, 0x10, 0x05];
    assert_eq!(dense_pass(&other_pair, 0, 4), Ok(Part::at(2, 0)));
    assert_eq!(dense_pass(&[], 0, 0), Ok(Part::ABSENT));
    assert_eq!(dense_pass(&[], 0, 1), Err(14));
    assert_eq!(dense_pass(&[], usize::MAX, usize::MAX), Err(14));
}

#[test]
fn views_test_their_range_first() {
    for (start, len) in [(0, 2), (2, 0), (1, 1), (usize::MAX, 1), (1, usize::MAX)] {
        assert_eq!(Node::read(&[0x07], start, len), Err(14));
        assert_eq!(Way::read(&[0x07], start, len), Err(14));
        assert_eq!(Relation::read(&[0x07], start, len), Err(14));
        assert_eq!(DenseNodes::read(&[0x07], start, len), Err(14));
        assert_eq!(DenseInfo::read(&[0x07], start, len), Err(14));
        assert_eq!(Info::read(&[0x07], start, len), Err(14));
    }
    assert_eq!(Node::read(&[0x07], 1, 0), Ok(Node::default()));
    assert_eq!(Node::read(&[0x07], 0, 1), Err(4));
}

#[test]
fn infos_may_be_empty_first_and_again() {
    let node = |bytes: &[u8]| Node::read(bytes, 0, bytes.len()).map(|n| n.info);
    assert_eq!(node(&[0x22, 0x00]), Ok(Part::at(2, 0)));
    assert_eq!(
        node(&[0x22, 0x00, 0x22, 0x00]),
        Ok(Part::at(4, 0)),
        "the last empty one"
    );
    assert_eq!(
        node(&[0x22, 0x00, 0x22, 0x02, 0x08, 0x01]),
        Ok(Part::at(4, 2))
    );
    assert_eq!(
        node(&[0x22, 0x02, 0x08, 0x01, 0x22, 0x00]),
        Ok(Part::at(2, 2))
    );
    let twice = [0x22, 0x02, 0x08, 0x01, 0x22, 0x02, 0x08, 0x01];
    assert_eq!(node(&twice), Err(10));
    let dense = [0x2A, 0x02, 0x08, 0x01, 0x2A, 0x01, 0x08];
    assert_eq!(DenseNodes::read(&dense, 0, 7), Err(10));
}

#[test]
fn a_bad_payload_comes_before_nine() {
    let cut = [0x42, 0x01, 0x02, 0x42, 0x05];
    assert_eq!(Way::read(&cut, 0, 5), Err(6));
    assert_eq!(
        Way::read(&[0x4A, 1, 2, 0x4A, 1, 2], 0, 6),
        Err(9),
        "unread columns too"
    );
    assert_eq!(Way::read(&[0x40, 0x02, 0x42, 0x01, 0x02], 0, 5), Err(9));
}

#[test]
fn pins_are_the_last_ones() {
    let way = [0xA2, 0x01, 0x01, 0x07, 0xA2, 0x01, 0x00, 0xA0, 0x01, 0x05];
    assert_eq!(Way::read(&way, 0, 10).unwrap().pins, Part::at(7, 0));
    assert_eq!(Way::read(&way, 0, 4).unwrap().pins, Part::at(3, 1));
}

#[test]
fn info_fields() {
    let bytes = [
        0x08, 0x81, 0x80, 0x80, 0x80, 0x10, // version 2^32 + 1
        0x10, 0x05, 0x18, 0x07, 0x20, 0xFF, 0xFF, 0xFF, 0xFF, 0x0F, // uid -1
        0x28, 0xFF, 0xFF, 0xFF, 0xFF, 0x1F, // user_sid 2^33 - 1
        0x30, 0x02,
    ];
    let expected = Info {
        version: Some(1),
        timestamp: Some(5),
        changeset: Some(7),
        uid: Some(-1),
        user_sid: Some(-1),
        visible: Some(true),
    };
    assert_eq!(Info::read(&bytes, 0, bytes.len()), Ok(expected));
    let minus_one = [
        0x18, 0xFF, 0xFF, 0xFF, 0xFF, 0xFF, 0xFF, 0xFF, 0xFF, 0xFF, 0x01,
    ];
    assert_eq!(Info::read(&minus_one, 0, 11).unwrap().changeset, None);
    assert_eq!(
        Info::read(&[0x08, 3, 0x0A, 1, 9, 0x08, 4], 0, 7)
            .unwrap()
            .version,
        Some(4)
    );
    assert_eq!(
        Info::read(&[0x30, 0x00], 0, 2).unwrap().visible,
        Some(false)
    );
}

#[test]
fn get_and_group_on_forged_records() {
    let (mut buffer, record) = scanned(&[0x0A, 0x02, 0x0A, 0x00, 0x12, 0x00]).unwrap();
    let far = Record {
        string_table: u64::MAX,
        string_count: u64::MAX,
        ..record
    };
    assert_eq!(get(&buffer, &far, u64::MAX - 1), Got::None);
    assert_eq!(
        group(&buffer, &far, 0),
        Err(14),
        "the record is tested first"
    );
    assert_eq!(check(&buffer, &far), Err(14));
    let long = Record {
        block_len: u64::MAX,
        ..record
    };
    assert_eq!(
        get(&buffer, &long, 0),
        Got::Text(4, 0),
        "get tests nothing else"
    );
    assert_eq!(group(&buffer, &long, 0), Err(14));
    assert_eq!(role_text(&buffer, &record, -1), Got::None);
    assert_eq!(role_text(&buffer, &record, 0), Got::Text(4, 0));
    buffer[record.string_table as usize] = 0xFF;
    assert_eq!(get(&buffer, &record, 0), Got::Refused(14));
    buffer[record.group_table as usize + 7] = 0xFF;
    assert_eq!(group(&buffer, &record, 0), Err(14));
    assert_eq!(check(&buffer, &record), Err(14));
}

#[test]
fn check_tests_all_group_entries_first() {
    let (mut buffer, record) = scanned(&[0x12, 0x01, 0x07, 0x12, 0x00]).unwrap();
    assert_eq!(check(&buffer, &record), Err(4));
    buffer[record.group_table as usize + 8 + 3] = 0xFF;
    assert_eq!(check(&buffer, &record), Err(14));
    assert_eq!(
        walk(&buffer, &record, Mode::Plain).1,
        4,
        "a walk only when it enters"
    );
}

#[test]
fn parts_as_bytes() {
    let buffer = [1, 2, 3];
    assert_eq!(bytes_of(&buffer, Part::at(1, 2)), [2, 3]);
    assert_eq!(bytes_of(&buffer, Part::at(1, 3)), []);
    assert_eq!(bytes_of(&buffer, Part::at(usize::MAX, 2)), []);
    assert_eq!(
        bytes_of(
            &buffer,
            Part {
                present: false,
                start: 0,
                len: 2
            }
        ),
        []
    );
}

#[test]
fn classification_by_the_first_byte() {
    use GroupType::*;
    let cases = [
        (0x0A, Nodes),
        (0x12, DenseNodes),
        (0x1A, Ways),
        (0x22, Relations),
    ];
    for (byte, expected) in cases {
        assert_eq!(classify_group(&[byte, 0xFF]), expected);
    }
    assert_eq!(classify_group(&[]), Empty);
    for byte in [0x08, 0x02, 0x2A, 0x8A, 0x92, 0x10] {
        assert_eq!(classify_group(&[byte]), Mixed);
    }
}

#[test]
fn message_iterator_ends_quietly_and_stays_ended() {
    let group = [
        0x0A, 0x00, 0x12, 0x01, 0x07, 0x0A, 0x01, 0x09, 0x07, 0x0A, 0x00,
    ];
    let first = Messages::new(1, 0, group.len());
    let (answer, second) = messages_step(&group, first);
    assert_eq!(answer, Answer::Item(Part::at(2, 0)));
    let (answer, third) = messages_step(&group, second);
    assert_eq!(answer, Answer::Item(Part::at(7, 1)));
    assert_eq!(
        messages_step(&group, third),
        (Answer::Ended, Messages::Ended)
    );
    assert_eq!(
        messages_step(&group, Messages::Ended),
        (Answer::Ended, Messages::Ended)
    );
    let outside = Messages::new(1, 1, usize::MAX);
    assert_eq!(
        messages_step(&group, outside),
        (Answer::Refused(14), Messages::Ended)
    );
}
