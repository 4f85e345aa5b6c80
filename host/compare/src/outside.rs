//! Questions of the fixed list about what lies outside a buffer, and about
//! what lies inside but behind a table's count.

use crate::question::{Ask, Places};
use crate::samples::Question;

pub fn questions(list: &mut Vec<Question>) {
    let block = vec![0x12, 0x00];
    for (len, room) in [(3, 2), (2, 1), (u64::MAX, 12), (33_554_433, 12), (2, 10)] {
        list.push((Ask::Scan { len, room }, block.clone()));
    }
    // Three entries: inside, at the buffer's end, one past it.
    let table = table(&[(4, 5), (24, 0), (8, 17)]);
    strings(&table, list);
    groups(&table, list);
    behind_the_count(list);
}

fn table(entries: &[(u32, u32)]) -> Vec<u8> {
    let numbers = entries.iter().flat_map(|&(start, len)| [start, len]);
    numbers.flat_map(u32::to_le_bytes).collect()
}

fn strings(table: &[u8], list: &mut Vec<Question>) {
    let far = u64::MAX;
    let places = [0, 8, 16, 17, 24, far];
    for place in places {
        for (count, index) in [(2, 0), (2, 1), (1, 1), (far, far - 1)] {
            list.push((
                Ask::Get {
                    place,
                    count,
                    index,
                },
                table.to_vec(),
            ));
        }
    }
}

fn groups(table: &[u8], list: &mut Vec<Question>) {
    let inside = Places {
        block_len: 0,
        string_table: 0,
        string_count: 1,
        group_table: 8,
        group_count: 2,
    };
    for record in [
        inside,
        Places {
            block_len: 24,
            ..inside
        },
        Places {
            block_len: 25,
            ..inside
        },
        Places {
            string_table: 16,
            ..inside
        },
        Places {
            string_table: 17,
            ..inside
        },
        Places {
            string_count: u64::MAX,
            ..inside
        },
        Places {
            group_table: 9,
            ..inside
        },
        Places {
            group_count: 3,
            ..inside
        },
    ] {
        for index in [0, 1, 2] {
            list.push((Ask::Group { record, index }, table.to_vec()));
        }
    }
}

/// A string and a group at the count, where an entry's bytes stand behind the
/// table and their range is inside, so that nothing but the count refuses.
fn behind_the_count(list: &mut Vec<Question>) {
    let block = [0x0a, 0x05, 0x0a, 0x00, 0x0a, 0x01, 0x61, 0x12, 0x00];
    let place = block.len() as u64;
    for (strings, groups, more) in [(2, 1, 1), (2, 0, 2), (1, 2, 1), (0, 0, 4)] {
        let entries = [(4, 0), (6, 1), (9, 0), (4, 3)];
        let buffer = [&block[..], &table(&entries[..strings + groups + more])].concat();
        let record = Places {
            block_len: place,
            string_table: place,
            string_count: strings as u64,
            group_table: place + 8 * strings as u64,
            group_count: groups as u64,
        };
        let string = Ask::Get {
            place,
            count: record.string_count,
            index: record.string_count,
        };
        let index = record.group_count;
        list.push((string, buffer.clone()));
        list.push((Ask::Group { record, index }, buffer.clone()));
        // The same entry is found where the count is one more.
        let group_count = index + 1;
        let record = Places {
            group_count,
            ..record
        };
        list.push((Ask::Group { record, index }, buffer));
    }
}
