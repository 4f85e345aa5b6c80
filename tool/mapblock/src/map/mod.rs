//! What of a map is drawn: its paths, fences and waters by their tags, and
//! the names that go with them, with all places in degrees.

mod drawing;
mod labels;
mod projection;
mod rings;
mod style;
mod svg;

use std::collections::HashMap;

use crate::elements::{Element, Kind, MemberKind, Text};
use rings::rings;
use style::{Class, Mark};

pub use svg::svg;

/// Latitude and longitude in degrees.
type Position = (f64, f64);

/// What has been read of the blocks of a map so far. A way may come before
/// its nodes and a relation before its ways, so places are looked up last.
#[derive(Default)]
pub struct Map {
    nodes: HashMap<i64, Position>,
    ways: HashMap<i64, Vec<i64>>,
    shapes: Vec<Shape>,
    points: Vec<Point>,
}

/// A way or a relation that is drawn.
struct Shape {
    class: Class,
    /// `way 17`, and under it its tags, a line each.
    title: String,
    name: Option<String>,
    outline: Outline,
}

enum Outline {
    /// The nodes of a way.
    Nodes(Vec<i64>),
    /// The ways around an area and the islands in it.
    Ways(Vec<i64>),
}

/// A place with a name.
struct Point {
    mark: Mark,
    title: String,
    name: String,
    position: Position,
}

impl Map {
    /// Adds an element of an accepted block.
    pub fn add(&mut self, element: Element) {
        match element.kind {
            Kind::DenseNode | Kind::Node => self.node(&element),
            Kind::Way => self.way(element),
            Kind::Relation => self.relation(&element),
        }
    }

    fn node(&mut self, node: &Element) {
        let Some(position) = node.nanodegrees.and_then(on_earth) else {
            return;
        };
        self.nodes.insert(node.id, position);
        if let (Some(mark), Some(name)) = (style::mark(&node.tags), name(&node.tags)) {
            self.points.push(Point {
                mark,
                title: title(node),
                name,
                position,
            });
        }
    }

    fn way(&mut self, way: Element) {
        let is_closed = way.refs.len() > 3 && way.refs.first() == way.refs.last();
        if let Some(class) = style::class(&way.tags, is_closed) {
            self.shapes.push(Shape {
                class,
                title: title(&way),
                name: name(&way.tags),
                outline: Outline::Nodes(way.refs.clone()),
            });
        }
        self.ways.insert(way.id, way.refs);
    }

    /// Only areas of water, whose tags are the relation's.
    fn relation(&mut self, relation: &Element) {
        let is_area = style::has(&relation.tags, "type", &["multipolygon"]);
        if !is_area || style::class(&relation.tags, true) != Some(Class::Water) {
            return;
        }
        let ways = relation.members.iter();
        let ways = ways.filter(|member| member.kind == MemberKind::Way);
        self.shapes.push(Shape {
            class: Class::Water,
            title: title(relation),
            name: name(&relation.tags),
            outline: Outline::Ways(ways.map(|member| member.id).collect()),
        });
    }

    /// The lines of a shape in degrees. Nodes that are not in the map are
    /// left out, as a camera does with a map that was cut.
    fn lines(&self, outline: &Outline) -> Vec<Vec<Position>> {
        let placed = |nodes: &Vec<i64>| -> Vec<Position> {
            let found = nodes.iter().filter_map(|id| self.nodes.get(id));
            found.copied().collect()
        };
        match outline {
            Outline::Nodes(nodes) => vec![placed(nodes)],
            Outline::Ways(ways) => {
                let found = ways.iter().filter_map(|id| self.ways.get(id));
                rings(found.cloned().collect()).iter().map(placed).collect()
            }
        }
    }
}

/// In degrees, where it is a place on earth.
fn on_earth((lat, lon): (i64, i64)) -> Option<Position> {
    let (lat, lon) = (lat as f64 / 1e9, lon as f64 / 1e9);
    (lat.abs() <= 90.0 && lon.abs() <= 180.0).then_some((lat, lon))
}

fn name(tags: &[(Text, Text)]) -> Option<String> {
    let (_, name) = tags.iter().find(|(key, _)| key == b"name")?;
    let name = String::from_utf8_lossy(name).trim().to_string();
    (!name.is_empty()).then_some(name)
}

fn title(element: &Element) -> String {
    let mut title = crate::text::name(element);
    for (key, value) in &element.tags {
        let (key, value) = (String::from_utf8_lossy(key), String::from_utf8_lossy(value));
        title.push_str(&format!("\n{key} = {value}"));
    }
    title
}
