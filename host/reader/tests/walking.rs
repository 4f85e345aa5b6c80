//! The check's order, the walks step by step, the sub-walks, and that a walk
//! over an accepted block gives the listing. With the traps that the support
//! desk has seen.

mod common;
use common::*;
use reader::listing::{Kind, Metadata};
use reader::walk::{InGroup, Place};
use reader::*;

/// A dense field from its columns: ids, lats, lons, then other fields.
fn dense(ids: &[u8], lats: &[u8], lons: &[u8], others: &[u8]) -> Vec<u8> {
    field(
        2,
        &[
            field(1, ids),
            field(8, lats),
            field(9, lons),
            others.to_vec(),
        ]
        .concat(),
    )
}

#[test]
fn groups_are_walked_by_kind() {
    let group = [
        field(4, &[0x08, 4]),
        field(3, &[0x08, 3]),
        field(1, &[0x08, 2, 0x40, 3, 0x48, 4]),
        dense(&[2], &[4], &[6], &[]),
    ];
    let block = join(&[&block_of(&[]), &block_of(&group.concat())]);
    let listing = listing(&block).unwrap();
    let kinds: Vec<Kind> = listing.elements.iter().map(|e| e.kind).collect();
    assert_eq!(
        kinds,
        [Kind::DenseNode, Kind::Node, Kind::Way, Kind::Relation]
    );
    assert!(listing.elements.iter().all(|e| e.group == 1));
    assert_eq!(listing.elements[0].position, Some((2, 3)));
    assert_eq!(listing.elements[1].position, Some((-2, 2)));
    assert_eq!((listing.group_count, listing.elements[3].id), (2, 4));
    let [(plain, ended), _] = walks(&block);
    assert_eq!((plain.len(), ended), (4, 0));
    assert!(plain.iter().all(|e| e.group == 1));
}

#[test]
fn steps_after_the_end_say_ended() {
    let (buffer, record) = scanned(&block_of(&field(3, &[]))).unwrap();
    let (_, state) = step(&buffer, &record, start(&record), Mode::Plain);
    assert_eq!(
        step(&buffer, &record, state, Mode::Plain),
        (Answer::Ended, Walk::Ended)
    );
    let forged = Record {
        block_len: u64::MAX,
        ..record
    };
    assert_eq!(
        step(&buffer, &forged, Walk::Ended, Mode::Full),
        (Answer::Ended, Walk::Ended)
    );
    let outside = (Answer::Refused(14), Walk::Ended);
    assert_eq!(step(&buffer, &forged, start(&record), Mode::Full), outside);
    assert_eq!(step(&buffer, &record, Walk::Before(2), Mode::Full), outside);
    let at_count = step(&buffer, &record, Walk::Before(1), Mode::Full);
    assert_eq!(at_count, (Answer::Ended, Walk::Ended));
}

#[test]
fn the_check_reads_in_its_order() {
    let cases: [(&str, Vec<u8>, Refusal); 9] = [
        (
            "dense pass before the dense message",
            join(&[&field(2, &[0x07]), &[0x0B]]),
            6,
        ),
        (
            "dense before nodes",
            join(&[&field(1, &[0x07]), &field(2, &[0x0E])]),
            5,
        ),
        (
            "nodes before ways",
            join(&[&field(3, &[0x07]), &field(1, &[0x0E])]),
            5,
        ),
        (
            "DenseInfo before ids",
            dense(&[0x80], &[], &[], &field(5, &[0x07])),
            4,
        ),
        ("lats before counts", dense(&[2], &[0x80], &[], &[]), 2),
        (
            "counts before keys_vals",
            dense(&[2], &[], &[], &field(10, &[0x80])),
            12,
        ),
        (
            "Info before keys",
            field(1, &join(&[&field(2, &[0x80]), &field(4, &[0x07])])),
            4,
        ),
        (
            "keys and vals before refs",
            field(3, &join(&[&field(8, &[0x80]), &field(2, &[1])])),
            12,
        ),
        (
            "types before counts",
            field(4, &join(&[&field(8, &[1]), &field(10, &[0x80])])),
            2,
        ),
    ];
    for (name, group, number) in cases {
        assert_eq!(accept(&block_of(&group)), Err(number), "{name}");
    }
}

#[test]
fn keys_vals_come_before_info_columns_in_the_check_only() {
    let infos = field(
        5,
        &field(
            1,
            &[0xFF, 0xFF, 0xFF, 0xFF, 0xFF, 0xFF, 0xFF, 0xFF, 0xFF, 0xFF],
        ),
    );
    let block = block_of(&dense(&[2], &[2], &[2], &join(&[&field(10, &[1]), &infos])));
    assert_eq!(accept(&block), Err(2));
    let [plain, full] = walks(&block);
    assert_eq!((plain.1, full.1), (2, 3));
}

#[test]
fn the_walk_reads_the_row_before_twelve() {
    let walk_ends = |block: &[u8]| walks(block).map(|w| (w.0.len(), w.1));
    let bad_lon = block_of(&dense(&[2], &[], &[0x80], &[]));
    assert_eq!(walk_ends(&bad_lon), [(0, 2), (0, 2)]);
    let infos = field(5, &field(1, &[0x80]));
    assert_eq!(
        walk_ends(&block_of(&dense(&[2], &[], &[], &infos))),
        [(0, 12), (0, 2)]
    );
    assert_eq!(
        walk_ends(&block_of(&dense(&[], &[], &[], &infos))),
        [(0, 0), (0, 2)]
    );
    let later = block_of(&dense(&[2, 2], &[2], &[2], &[]));
    assert_eq!(walk_ends(&later), [(1, 12), (1, 12)]);
}

#[test]
fn info_columns_of_other_counts() {
    let infos = |columns: &[Vec<u8>]| field(5, &columns.concat());
    let two = |n| field(n, &[2, 2]);
    let all = [
        field(1, &[3, 3]),
        two(2),
        two(3),
        two(4),
        two(5),
        field(6, &[0]),
    ];
    let block = block_of(&dense(&[2, 2, 2], &[0, 0, 0], &[0, 0, 0], &infos(&all)));
    assert_eq!(accept(&block), Ok(()));
    let full = full_listing(&block).unwrap();
    let row = |n: i64, visible| {
        Metadata::Dense(Some(DenseNodeInfo {
            version: 3,
            timestamp: n,
            changeset: n,
            uid: n as i32,
            user_sid: n as i32,
            visible,
        }))
    };
    assert_eq!(
        full.metadata,
        [row(1, false), row(2, true), Metadata::Dense(None)]
    );
    let [(plain, _), (walked, ended)] = walks(&block);
    assert_eq!(
        (walked.len(), ended),
        (3, 0),
        "dense nodes do not stop when info ends"
    );
    for (element, metadata) in walked.iter().zip(&full.metadata) {
        let Body::Dense(node) = element.body else {
            panic!("a dense node")
        };
        assert_eq!(Metadata::Dense(node.info), *metadata);
    }
    assert!(plain
        .iter()
        .all(|e| matches!(e.body, Body::Dense(n) if n.info.is_none())));
}

#[test]
fn uid_sums_wrap_at_32_bits() {
    let largest = [0xFE, 0xFF, 0xFF, 0xFF, 0x0F];
    let uids = join(&[&largest, &[0x02]]);
    let two = |n| field(n, &[0, 0]);
    let infos = [two(1), two(2), two(3), field(4, &uids), field(5, &uids)].concat();
    let block = block_of(&dense(&[2, 2], &[0, 0], &[0, 0], &field(5, &infos)));
    let full = full_listing(&block).unwrap();
    let Metadata::Dense(Some(row)) = full.metadata[1] else {
        panic!("info is present")
    };
    assert_eq!((row.uid, row.user_sid), (i32::MIN, i32::MIN));
}

#[test]
fn plain_elements_have_no_info() {
    let info = field(4, &[0x08, 0x05]);
    let group = [field(1, &info), field(3, &info), field(4, &info)].concat();
    let [(plain, _), (full, _)] = walks(&block_of(&group));
    let info_of = |e: &Element| match e.body {
        Body::Node(n) => n.info,
        Body::Way(w) => w.info,
        Body::Relation(r) => r.info,
        Body::Dense(_) => Part::ABSENT,
    };
    assert!(plain.iter().all(|e| info_of(e) == Part::ABSENT));
    assert!(full.iter().all(|e| info_of(e).len == 2));
}

#[test]
fn shown_tags_end_at_a_number_past_the_table() {
    let tagged = |keys: &[u8], vals: &[u8]| {
        let node = field(1, &join(&[&field(2, keys), &field(3, vals)]));
        join(&[&strings(&["a", "b"]), &block_of(&node)])
    };
    let block = tagged(&[0, 1, 0], &[1, 2, 1]);
    assert_eq!(accept(&block), Ok(()));
    assert_eq!(
        listing(&block).unwrap().elements[0].tags,
        [(&b"a"[..], &b"b"[..])]
    );
    let (buffer, record) = scanned(&block).unwrap();
    let node = Node::read(&buffer, first_message(&buffer, &record).start, 10).unwrap();
    let (answer, next) = tags_step(&buffer, &record, Tags::of(node.keys, node.vals));
    assert!(matches!(answer, Answer::Item(tag) if bytes_of(&buffer, tag.key) == b"a"));
    assert_eq!(
        tags_step(&buffer, &record, next),
        (Answer::Ended, Tags::Ended)
    );
    // key, value, then 12
    assert_eq!(accept(&tagged(&[0], &[0, 0])), Err(12));
    let forged = Record {
        string_table: u64::MAX,
        ..record
    };
    let state = Tags::of(node.keys, node.vals);
    assert_eq!(
        tags_step(&buffer, &forged, state),
        (Answer::Refused(14), Tags::Ended)
    );
}

/// The first message of group 0, whatever its kind.
fn first_message(buffer: &[u8], record: &Record) -> Part {
    let (start, len) = group(buffer, record, 0).unwrap();
    let number = u32::from(buffer[start] / 8);
    match messages_step(buffer, Messages::new(number, start, len)).0 {
        Answer::Item(message) => message,
        other => panic!("no message: {other:?}"),
    }
}

#[test]
fn fourteen_of_a_string_comes_before_the_end() {
    let node = field(1, &join(&[&field(2, &[9]), &field(3, &[0])]));
    let block = join(&[&strings(&["a"]), &block_of(&node)]);
    let (mut buffer, record) = scanned(&block).unwrap();
    let message = first_message(&buffer, &record);
    let node = Node::read(&buffer, message.start, message.len).unwrap();
    let state = Tags::of(node.keys, node.vals);
    assert_eq!(tags_step(&buffer, &record, state).0, Answer::Ended);
    buffer[record.string_table as usize + 3] = 0xFF;
    assert_eq!(tags_step(&buffer, &record, state).0, Answer::Refused(14));
}

#[test]
fn dense_tags_go_on_past_a_value_0_and_keep_64_bits() {
    let tags = |keys_vals: &[u8]| {
        let node = dense(&[2], &[2], &[2], &field(10, keys_vals));
        let block = join(&[&strings(&["z", "a"]), &block_of(&node)]);
        let listing = listing(&block).unwrap();
        listing.elements[0].tags.len()
    };
    assert_eq!(tags(&[1, 0, 1, 1, 0]), 2, "a value 0 is string 0");
    assert_eq!(
        tags(&[0x80, 0x80, 0x80, 0x80, 0x10, 1]),
        0,
        "key 2^32 is not 0 but past the table"
    );
    assert_eq!(tags(&[0x80, 0x00, 1]), 0, "an overlong 0 closes");
    assert_eq!(
        tags(&[1, 1, 0, 0x80]),
        1,
        "bytes after the last node's pairs are unread"
    );
}

#[test]
fn members_and_role_texts() {
    let minus_one = [0xFF, 0xFF, 0xFF, 0xFF, 0x0F];
    let roles = join(&[&[1, 9], &minus_one, &[0]]);
    let relation = [
        field(8, &roles),
        field(9, &[2, 2, 3, 2]),
        field(10, &[0, 1, 2, 7]),
    ]
    .concat();
    let block = join(&[&strings(&["", "in"]), &block_of(&field(4, &relation))]);
    assert_eq!(accept(&block), Ok(()));
    let listing = listing(&block).unwrap();
    let members = &listing.elements[0].members;
    let ids: Vec<MemberId> = members.iter().map(|m| m.id).collect();
    use MemberId::*;
    assert_eq!(ids, [Node(1), Way(2), Relation(0), Unknown(7, 1)]);
    let roles: Vec<Option<&[u8]>> = members.iter().map(|m| m.role).collect();
    assert_eq!(roles, [Some(&b"in"[..]), None, None, Some(&b""[..])]);
    let short = [field(8, &[1]), field(9, &[2, 2]), field(10, &[0, 0])].concat();
    let short = block_of(&field(4, &short));
    assert_eq!(accept(&short), Err(12));
    assert_eq!(reader::listing(&short), Err(12));
    assert_eq!(content(&short), Err(12));
}

#[test]
fn members_are_read_role_id_type_then_twelve() {
    let first_step = |roles: &[u8], memids: &[u8], types: &[u8]| {
        let relation = [field(8, roles), field(9, memids), field(10, types)].concat();
        let (buffer, record) = scanned(&block_of(&field(4, &relation))).unwrap();
        let message = first_message(&buffer, &record);
        let view = Relation::read(&buffer, message.start, message.len).unwrap();
        members_step(&buffer, &record, Members::of(&view)).0
    };
    let ten = [0xFF; 10];
    assert_eq!(first_step(&[0x80], &ten, &ten), Answer::Refused(2));
    assert_eq!(first_step(&[], &ten, &[0x80]), Answer::Refused(3));
    assert_eq!(first_step(&[], &[], &[0x80]), Answer::Refused(2));
    assert_eq!(first_step(&[1], &[], &[0]), Answer::Refused(12));
    assert_eq!(first_step(&[], &[], &[]), Answer::Ended);
    let member = Member {
        role: 1,
        id: MemberId::Way(-1),
    };
    assert_eq!(first_step(&[1], &[1], &[1]), Answer::Item(member));
}

#[test]
fn sub_walks_test_ended_then_their_state() {
    let (buffer, record) = scanned(&[]).unwrap();
    let forged = Record {
        block_len: u64::MAX,
        ..record
    };
    let outside = Column { at: 1, end: 0 };
    assert_eq!(tags_step(&buffer, &forged, Tags::Ended).0, Answer::Ended);
    assert_eq!(
        dense_tags_step(&buffer, &forged, DenseTags::Ended).0,
        Answer::Ended
    );
    assert_eq!(refs_step(&buffer, Refs::Ended).0, Answer::Ended);
    assert_eq!(
        members_step(&buffer, &forged, Members::Ended).0,
        Answer::Ended
    );
    let pairs = DenseTags::At { pairs: outside };
    let refused = (Answer::Refused(14), DenseTags::Ended);
    assert_eq!(dense_tags_step(&buffer, &record, pairs), refused);
    let refs = Refs::At {
        refs: outside,
        sum: 0,
    };
    assert_eq!(refs_step(&buffer, refs), (Answer::Refused(14), Refs::Ended));
    let past = Column {
        at: 0,
        end: buffer.len() + 1,
    };
    let refs = Refs::At { refs: past, sum: 0 };
    assert_eq!(refs_step(&buffer, refs), (Answer::Refused(14), Refs::Ended));
    let beyond = Column {
        at: past.end,
        end: past.end,
    };
    let refs = Refs::At {
        refs: beyond,
        sum: 0,
    };
    assert_eq!(refs_step(&buffer, refs), (Answer::Refused(14), Refs::Ended));
}

#[test]
fn raw_tags_go_on_where_none_is_shown() {
    let tagged = field(1, &join(&[&field(2, &[1, 9, 1]), &field(3, &[1, 1, 1])]));
    let group = [
        dense(&[2], &[2], &[2], &field(10, &[1, 1, 9, 0, 0])),
        tagged,
    ]
    .concat();
    let block = join(&[&strings(&["", "a"]), &block_of(&group)]);
    let (buffer, record) = scanned(&block).unwrap();
    let [(plain, _), _] = walks(&block);
    let (Body::Dense(dense), Body::Node(node)) = (plain[0].body, plain[1].body) else {
        panic!("a dense node, then a node")
    };
    let numbers = |tag: &RawTag| (tag.key, tag.val);
    let pairs = all_steps(DenseTags::of(dense.tags), |s| {
        raw_dense_tags_step(&buffer, s)
    })
    .unwrap();
    assert_eq!(
        pairs.iter().map(numbers).collect::<Vec<_>>(),
        [(1, 1), (9, 0)]
    );
    let state = Tags::of(node.keys, node.vals);
    let pairs = all_steps(state, |s| raw_tags_step(&buffer, s)).unwrap();
    assert_eq!(pairs.len(), 3);
    let shown = all_steps(state, |s| tags_step(&buffer, &record, s)).unwrap();
    assert_eq!(
        shown.iter().map(|t| numbers(&t.raw)).collect::<Vec<_>>(),
        [(1, 1)]
    );
}

#[test]
fn an_element_has_the_range_of_its_message() {
    let group = [dense(&[2, 2], &[2, 2], &[2, 2], &[]), field(3, &[0x08, 3])].concat();
    let block = block_of(&group);
    let [(plain, _), (full, _)] = walks(&block);
    let ranges =
        |elements: &[Element]| -> Vec<Part> { elements.iter().map(|e| e.message).collect() };
    assert_eq!(
        ranges(&plain),
        [Part::at(4, 12), Part::at(4, 12), Part::at(18, 2)]
    );
    assert_eq!(ranges(&full), ranges(&plain));
}

#[test]
fn a_state_in_a_group_is_below_the_count_and_inside() {
    let block = block_of(&dense(&[2, 2], &[2, 2], &[2, 2], &[]));
    let (buffer, record) = scanned(&block).unwrap();
    let (_, state) = step(&buffer, &record, start(&record), Mode::Plain);
    let Walk::Inside(inside) = state else {
        panic!("among the dense nodes")
    };
    let Place::Dense { message, rows } = inside.place else {
        panic!("among the dense nodes")
    };
    let goes_on = |inside| {
        !matches!(
            step(&buffer, &record, Walk::Inside(inside), Mode::Plain).0,
            Answer::Refused(14)
        )
    };
    assert!(goes_on(inside));
    assert!(!goes_on(InGroup { group: 1, ..inside }));
    assert!(!goes_on(InGroup {
        len: usize::MAX,
        ..inside
    }));
    for (start, len) in [(0, buffer.len() + 1), (usize::MAX, message.len)] {
        let message = Part::at(start, len);
        assert!(!goes_on(InGroup {
            place: Place::Dense { message, rows },
            ..inside
        }));
    }
}

#[test]
fn steps_by_value_and_in_place_agree() {
    let group = [dense(&[2, 2], &[0, 0], &[0, 0], &[]), field(3, &[0x08, 3])].concat();
    let (buffer, record) = scanned(&block_of(&group)).unwrap();
    let mut in_place = start(&record);
    let mut by_value = start(&record);
    for _ in 0..5 {
        let (answer, next) = step(&buffer, &record, by_value, Mode::Full);
        assert_eq!(in_place.advance(&buffer, &record, Mode::Full), answer);
        assert_eq!(in_place, next);
        by_value = next;
    }
    assert_eq!(by_value, Walk::Ended);
}

#[test]
fn walks_give_the_listings() {
    let group = [
        dense(&[2, 2], &[0, 0], &[0, 0], &field(10, &[1, 1])),
        field(3, &[0x08, 3]),
    ];
    let block = join(&[&strings(&["a", "b"]), &block_of(&group.concat())]);
    let (buffer, record) = scanned(&block).unwrap();
    assert_eq!(walked(&buffer, &record), listing(&block));
    assert_eq!(walked_full(&buffer, &record), full_listing(&block));
    assert_eq!(
        listing(&block).unwrap().elements[0].tags,
        [(&b"b"[..], &b"b"[..])]
    );
}

#[test]
fn an_empty_dense_is_present() {
    assert_eq!(dense_pass(&[0x12, 0x00], 0, 2), Ok(Part::at(2, 0)));
    assert_eq!(
        accept(&block_of(&[0x12, 0x00, 0x12, 0x02, 0x0A, 0x00])),
        Err(11)
    );
}

#[test]
fn columns_of_type_0_and_their_spelling() {
    let group = dense_of_type_0();
    let listing_of = listing(&group).unwrap();
    assert_eq!(listing_of.elements[0].id, 1);
    assert_eq!(accept(&group), Ok(()));
}

fn dense_of_type_0() -> Vec<u8> {
    block_of(&field(2, &[0x08, 0x82, 0x00, 0x40, 0x00, 0x48, 0x00]))
}

#[test]
fn nanodegrees_wrap() {
    assert_eq!(nanodegrees(5, 100, 7), 705);
    assert_eq!(nanodegrees(i64::MAX, 1, 1), i64::MIN);
    assert_eq!(nanodegrees(0, 2, i64::MIN), 0);
}

#[test]
fn content_and_listing_agree_on_equality() {
    let one = block_of(&dense(&[2, 2], &[0, 0], &[0, 0], &[]));
    let spelled = block_of(&dense(
        &[0x82, 0x00, 2],
        &[0, 0],
        &[0, 0],
        &field(10, &[0, 0]),
    ));
    let other = block_of(&dense(&[2, 4], &[0, 0], &[0, 0], &[]));
    assert_eq!(listing(&one), listing(&spelled));
    assert_eq!(content(&one), content(&spelled));
    assert_ne!(listing(&one), listing(&other));
    assert_ne!(content(&one), content(&other));
}
