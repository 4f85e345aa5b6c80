//! Names on the picture: the most important first, each only where it covers
//! no other name, and that of a line only where the line is as long.

use super::Point;
use super::drawing::{Drawn, Pixel};
use super::projection::WIDTH;
use super::style::Class;

pub struct Label<'a> {
    /// Its name in the style sheet.
    pub id: &'static str,
    pub text: &'a str,
    /// What it is the name of.
    pub at: Pixel,
    /// In degrees, clockwise.
    pub angle: f64,
    /// How far above its place its middle is, whatever the map's size.
    pub lift: f64,
}

/// A letter's mean width, as a part of its height.
const LETTER: f64 = 0.58;
/// Letters of lines and areas have this height.
const LINE_FONT: f64 = 11.0;
/// The same name is not told again nearer than this.
const APART: f64 = 300.0;

/// Left, top, right, bottom.
type Area = [f64; 4];

pub fn place<'a>(
    shapes: &[Drawn<'a>],
    points: &[(&'a Point, Pixel)],
    height: f64,
) -> Vec<Label<'a>> {
    let mut placed = Placed {
        height,
        taken: Vec::new(),
        labels: Vec::new(),
    };
    for (point, at) in points {
        let font = point.mark.font_size();
        let label = Label {
            id: point.mark.id(),
            text: &point.name,
            at: *at,
            angle: 0.0,
            lift: font,
        };
        placed.put(label, font);
    }
    for (name, drawn) in by_length(shapes) {
        placed.put_shape(name, drawn);
    }
    placed.labels
}

/// The shapes that have a name, waters first, and of each class the longest.
fn by_length<'s, 'a>(shapes: &'s [Drawn<'a>]) -> Vec<(&'a str, &'s Drawn<'a>)> {
    let mut named: Vec<_> = shapes
        .iter()
        .filter_map(|drawn| Some((drawn.shape.name.as_deref()?, drawn)))
        .collect();
    let longest = |drawn: &Drawn| {
        drawn
            .lines
            .iter()
            .map(|line| length(line))
            .fold(0.0, f64::max)
    };
    named.sort_by(|(_, a), (_, b)| {
        let by_class = a.shape.class.cmp(&b.shape.class);
        by_class.then(longest(b).total_cmp(&longest(a)))
    });
    named
}

struct Placed<'a> {
    height: f64,
    taken: Vec<Area>,
    labels: Vec<Label<'a>>,
}

impl<'a> Placed<'a> {
    fn put_shape(&mut self, name: &'a str, drawn: &Drawn<'a>) {
        let lines = drawn.lines.iter();
        let Some(line) = lines.max_by(|a, b| length(a).total_cmp(&length(b))) else {
            return;
        };
        let (at, angle, room) = match drawn.shape.class {
            Class::Water => middle_of_area(line).unwrap_or_else(|| middle_of_line(line)),
            _ => middle_of_line(line),
        };
        if room < width(name, LINE_FONT) || self.is_told_near(name, at) {
            return;
        }
        let id = match drawn.shape.class {
            Class::Water | Class::Stream => "on-water",
            _ => "on-line",
        };
        let label = Label {
            id,
            text: name,
            at,
            angle,
            lift: 0.0,
        };
        self.put(label, LINE_FONT);
    }

    /// Puts a label where nothing is in its way.
    fn put(&mut self, label: Label<'a>, font: f64) {
        let area = area(&label, font);
        let [left, top, right, bottom] = area;
        let is_inside = left > 0.0 && top > 0.0 && right < WIDTH && bottom < self.height;
        if is_inside && !self.taken.iter().any(|taken| overlap(taken, &area)) {
            self.taken.push(area);
            self.labels.push(label);
        }
    }

    fn is_told_near(&self, name: &str, (x, y): Pixel) -> bool {
        let mut same = self.labels.iter().filter(|label| label.text == name);
        same.any(|label| (label.at.0 - x).hypot(label.at.1 - y) < APART)
    }
}

fn width(text: &str, font: f64) -> f64 {
    text.chars().count() as f64 * LETTER * font
}

/// What a label covers, upright also where it is turned.
fn area(label: &Label, font: f64) -> Area {
    let (sin, cos) = label.angle.to_radians().abs().sin_cos();
    let (w, h) = (width(label.text, font), font * 1.2);
    let (half_w, half_h) = ((w * cos + h * sin) / 2.0, (w * sin + h * cos) / 2.0);
    let (x, y) = (label.at.0, label.at.1 - label.lift);
    [x - half_w, y - half_h, x + half_w, y + half_h]
}

fn overlap(a: &Area, b: &Area) -> bool {
    a[0] < b[2] && b[0] < a[2] && a[1] < b[3] && b[1] < a[3]
}

fn length(line: &[Pixel]) -> f64 {
    let steps = line.windows(2);
    steps
        .map(|step| (step[1].0 - step[0].0).hypot(step[1].1 - step[0].1))
        .sum()
}

/// The middle of an area, upright, with the area's width as its room; none
/// where it bends around its middle, as a river does.
fn middle_of_area(line: &[Pixel]) -> Option<(Pixel, f64, f64)> {
    let start = [f64::MAX, f64::MAX, f64::MIN, f64::MIN];
    let [left, top, right, bottom] = line.iter().fold(start, |[l, t, r, b], &(x, y)| {
        [l.min(x), t.min(y), r.max(x), b.max(y)]
    });
    let middle = ((left + right) / 2.0, (top + bottom) / 2.0);
    surrounds(line, middle).then_some((middle, 0.0, right - left))
}

/// Whether a closed line goes around a point: a ray from it to the right
/// crosses the line an odd number of times.
fn surrounds(line: &[Pixel], (x, y): Pixel) -> bool {
    let crossed = line.windows(2).filter(|step| {
        let ((x0, y0), (x1, y1)) = (step[0], step[1]);
        (y0 > y) != (y1 > y) && x < x0 + (y - y0) / (y1 - y0) * (x1 - x0)
    });
    crossed.count() % 2 == 1
}

/// The point halfway along a line and the direction there, turned so that
/// the text is not upside down, with the line's length as its room.
fn middle_of_line(line: &[Pixel]) -> (Pixel, f64, f64) {
    let whole = length(line);
    let mut rest = whole / 2.0;
    for step in line.windows(2) {
        let (dx, dy) = (step[1].0 - step[0].0, step[1].1 - step[0].1);
        let long = dx.hypot(dy);
        if long >= rest && long > 0.0 {
            let part = rest / long;
            let angle = (dy / dx).atan().to_degrees();
            return ((step[0].0 + dx * part, step[0].1 + dy * part), angle, whole);
        }
        rest -= long;
    }
    ((0.0, 0.0), 0.0, 0.0)
}

#[cfg(test)]
mod tests {
    use super::{middle_of_area, middle_of_line, overlap};

    #[test]
    fn a_line_is_labelled_halfway_and_never_upside_down() {
        let (at, angle, room) = middle_of_line(&[(10.0, 0.0), (0.0, 0.0), (0.0, 30.0)]);
        assert_eq!((at, angle.abs(), room), ((0.0, 10.0), 90.0, 40.0));
        let (_, angle, _) = middle_of_line(&[(10.0, 0.0), (0.0, 0.0)]);
        assert_eq!(angle.abs(), 0.0);
    }

    #[test]
    fn an_area_is_labelled_in_its_middle_where_it_has_one() {
        let square = [(0.0, 0.0), (4.0, 0.0), (4.0, 2.0), (0.0, 2.0), (0.0, 0.0)];
        assert_eq!(middle_of_area(&square), Some(((2.0, 1.0), 0.0, 4.0)));
        let bent = [
            (0.0, 0.0),
            (9.0, 0.0),
            (9.0, 9.0),
            (8.0, 9.0),
            (8.0, 1.0),
            (0.0, 1.0),
            (0.0, 0.0),
        ];
        assert_eq!(middle_of_area(&bent), None);
    }

    #[test]
    fn areas_that_touch_do_not_overlap() {
        assert!(!overlap(&[0.0, 0.0, 1.0, 1.0], &[1.0, 0.0, 2.0, 1.0]));
        assert!(overlap(&[0.0, 0.0, 1.0, 1.0], &[0.5, 0.5, 2.0, 1.0]));
    }
}
