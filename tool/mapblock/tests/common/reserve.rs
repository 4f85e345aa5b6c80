//! A made reserve of a few hundred metres: a road, a path, a fence, a stream,
//! a lake with an island whose outline is split over two ways, a hut whose
//! name is no plain text, a peak, and a way whose nodes are elsewhere.

use generate::encode::{deltas, zigzag};
use generate::model::{Block, Common, Group, Node, Relation, Way};
use generate::spell::spell_plain;

/// Grows a block with its string table.
struct Made {
    strings: Vec<Vec<u8>>,
    group: Group,
}

impl Made {
    fn string(&mut self, text: &str) -> u64 {
        let found = self.strings.iter().position(|s| s == text.as_bytes());
        let number = found.unwrap_or_else(|| {
            self.strings.push(text.into());
            self.strings.len() - 1
        });
        number as u64
    }

    fn common(&mut self, id: u64, tags: &[(&str, &str)]) -> Common {
        Common {
            id: Some(id),
            keys: tags.iter().map(|(key, _)| self.string(key)).collect(),
            vals: tags.iter().map(|(_, value)| self.string(value)).collect(),
            info: None,
        }
    }

    /// At so many ten-thousandths of a degree from the reserve's corner.
    fn node(&mut self, id: i64, (north, east): (i64, i64), tags: &[(&str, &str)]) {
        let common = self.common(zigzag(id), tags);
        self.group.nodes.push(Node {
            common,
            lat: Some(zigzag(470_000_000 + 1000 * north)),
            lon: Some(zigzag(95_000_000 + 1000 * east)),
        });
    }

    fn way(&mut self, id: u64, nodes: &[i64], tags: &[(&str, &str)]) {
        let common = self.common(id, tags);
        self.group.ways.push(Way {
            common,
            refs: deltas(nodes),
            ..Way::default()
        });
    }

    fn relation(&mut self, id: u64, ways: &[i64], tags: &[(&str, &str)]) {
        let common = self.common(id, tags);
        let outer = self.string("outer");
        self.group.relations.push(Relation {
            common,
            roles: vec![outer; ways.len()],
            memids: deltas(ways),
            types: vec![1; ways.len()],
        });
    }
}

pub fn reserve() -> Vec<u8> {
    let mut made = Made {
        strings: vec![vec![]],
        group: Group::default(),
    };
    put_nodes(&mut made);
    made.way(
        20,
        &[1, 2, 3],
        &[("highway", "residential"), ("name", "Mill Road")],
    );
    made.way(
        21,
        &[3, 4, 5, 6],
        &[("highway", "path"), ("name", "Ridge Path")],
    );
    made.way(22, &[7, 8, 9, 10, 7], &[("barrier", "fence")]);
    made.way(
        23,
        &[11, 12, 13],
        &[("waterway", "stream"), ("name", "Säge")],
    );
    made.way(24, &[14, 15, 16], &[]);
    made.way(25, &[14, 17, 16], &[]);
    made.way(26, &[18, 19, 20, 18], &[]);
    made.way(27, &[900, 901], &[("highway", "path")]);
    made.way(28, &[1, 3], &[("building", "yes")]);
    made.relation(
        30,
        &[24, 25, 26],
        &[
            ("type", "multipolygon"),
            ("natural", "water"),
            ("name", "Tarn"),
        ],
    );
    spell_plain(&Block {
        strings: made.strings,
        groups: vec![made.group],
        ..Block::default()
    })
}

fn put_nodes(made: &mut Made) {
    let places = [
        (5, 0),
        (6, 20),
        (4, 45),
        (10, 50),
        (22, 47),
        (30, 52),
        (12, 5),
        (12, 15),
        (20, 15),
        (20, 5),
        (30, 0),
        (26, 18),
        (25, 30),
        (25, 30),
        (32, 36),
        (25, 44),
        (16, 37),
        (24, 35),
        (26, 38),
        (23, 38),
    ];
    for (number, place) in places.into_iter().enumerate() {
        made.node(number as i64 + 1, place, &[]);
    }
    let hut = [("place", "hamlet"), ("name", "Tom & Ann's <hut>")];
    made.node(100, (8, 30), &hut);
    made.node(101, (18, 50), &[("natural", "peak"), ("name", "Knob")]);
    // Not on earth: a camera does not draw it.
    made.node(102, (1_000_000, 0), &[("place", "town"), ("name", "Far")]);
}
