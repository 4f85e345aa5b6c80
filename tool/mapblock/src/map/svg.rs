//! The picture of a map as SVG: shapes and names in a group of their own, so
//! that a page can move and enlarge it under the scale bar and the legend.

use super::Map;
use super::drawing::{Drawing, Drawn, Pixel};
use super::labels::Label;
use super::projection::{Projection, WIDTH, distance, scale_bar};
use super::style::Class;
use crate::xml::escape;

const STYLE: &str = include_str!("picture.css");

/// The strip under the map, for legend and scale bar.
const STRIP: f64 = 44.0;
/// How much of the strip one sample of the legend takes.
const SAMPLE: f64 = 150.0;
/// The most that the scale bar is long.
const LONGEST_BAR: f64 = 180.0;

/// The picture; `name` is what it is called.
pub fn svg(map: &Map, name: &str) -> String {
    let drawing = Drawing::of(map);
    let map_height = drawing
        .as_ref()
        .map_or(0.0, |drawing| drawing.projection.height);
    let height = map_height + STRIP;
    let mut out = format!(
        "<svg xmlns=\"http://www.w3.org/2000/svg\" viewBox=\"0 0 {WIDTH} {height:.0}\" \
         width=\"{WIDTH}\" height=\"{height:.0}\" role=\"img\">\n\
         <title>{}</title>\n<style>\n{STYLE}</style>\n\
         <rect class=\"ground\" width=\"100%\" height=\"100%\"/>\n",
        escape(name)
    );
    match &drawing {
        Some(drawing) => put_drawing(&mut out, drawing),
        None => put_words(&mut out, (20.0, 26.0), "no paths, fences or waters to draw"),
    }
    out.push_str("</svg>\n");
    out
}

fn put_drawing(out: &mut String, drawing: &Drawing) {
    out.push_str("<g id=\"map\">\n");
    for drawn in &drawing.shapes {
        put_shape(out, drawn);
    }
    for (point, (x, y)) in &drawing.points {
        let title = escape(&point.title);
        out.push_str(&format!(
            "<circle class=\"point\" cx=\"{x:.1}\" cy=\"{y:.1}\" r=\"2.5\">\
             <title>{title}</title></circle>\n"
        ));
    }
    for label in &drawing.labels {
        put_label(out, label);
    }
    out.push_str("</g>\n");
    let Projection { height, .. } = drawing.projection;
    out.push_str(&format!(
        "<rect class=\"strip\" y=\"{height:.1}\" width=\"100%\" height=\"{STRIP}\"/>\n"
    ));
    put_legend(out, height + STRIP / 2.0);
    put_scale_bar(out, drawing.projection.metre(), height + STRIP / 2.0);
}

fn put_shape(out: &mut String, drawn: &Drawn) {
    let class = drawn.shape.class.id();
    out.push_str(&format!("<path class=\"shape {class}\" d=\""));
    for line in &drawn.lines {
        put_line(out, line);
    }
    let title = escape(&drawn.shape.title);
    out.push_str(&format!("\"><title>{title}</title></path>\n"));
}

/// `M1 2 3 4`: to a tenth of a pixel, without points that fall together.
fn put_line(out: &mut String, line: &[Pixel]) {
    let tenths = |at: f64| (at * 10.0).round() / 10.0;
    let mut last = None;
    for &(x, y) in line {
        let point = (tenths(x), tenths(y));
        if last != Some(point) {
            let sign = if last.is_none() { "M" } else { " " };
            out.push_str(&format!("{sign}{} {}", point.0, point.1));
            last = Some(point);
        }
    }
}

fn put_label(out: &mut String, label: &Label) {
    let (x, y) = label.at;
    let Label {
        id, angle, lift, ..
    } = label;
    let text = escape(label.text);
    out.push_str(&format!(
        "<text class=\"label {id}\" y=\"{:.0}\" transform=\"translate({x:.1} {y:.1}) \
             rotate({angle:.0})\">{text}</text>\n",
        0.0 - lift
    ));
}

/// A sample of each class and what it stands for, side by side.
fn put_legend(out: &mut String, y: f64) {
    out.push_str("<g id=\"legend\">\n");
    for (number, class) in Class::ALL.into_iter().enumerate() {
        let x = 15.0 + number as f64 * SAMPLE;
        let sample = match class {
            Class::Water => format!("M{x:.1} {:.1} h30 v10 h-30 z", y - 5.0),
            _ => format!("M{x:.1} {y:.1} h30"),
        };
        out.push_str(&format!(
            "<path class=\"shape {}\" d=\"{sample}\"/>\n",
            class.id()
        ));
        put_words(out, (x + 38.0, y + 4.0), class.legend());
    }
    out.push_str("</g>\n");
}

/// On the right. Its group carries the pixels that a metre has, for a page
/// that enlarges the map.
fn put_scale_bar(out: &mut String, metre: f64, y: f64) {
    let metres = scale_bar(metre, LONGEST_BAR);
    let right = WIDTH - 15.0;
    let left = right - metres * metre;
    out.push_str(&format!(
        "<g id=\"scale\" data-metre=\"{metre:.6e}\" data-longest=\"{LONGEST_BAR}\">\n\
         <path class=\"bar\" d=\"M{left:.1} {y:.1} v6 H{right:.1} v-6\"/>\n"
    ));
    put_words(out, (left, y - 4.0), &distance(metres));
    out.push_str("</g>\n");
}

fn put_words(out: &mut String, (x, y): Pixel, words: &str) {
    let words = escape(words);
    out.push_str(&format!(
        "<text class=\"words\" x=\"{x:.1}\" y=\"{y:.1}\">{words}</text>\n"
    ));
}
