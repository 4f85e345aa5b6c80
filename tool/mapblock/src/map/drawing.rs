//! A map in pixels: which lines are drawn where, and which names beside them.

use super::labels::{self, Label};
use super::projection::{Projection, WIDTH};
use super::style::Class;
use super::{Map, Point, Position, Shape};

/// Pixels from the left and from the top.
pub type Pixel = (f64, f64);

pub struct Drawing<'a> {
    pub projection: Projection,
    /// In the order of drawing.
    pub shapes: Vec<Drawn<'a>>,
    pub points: Vec<(&'a Point, Pixel)>,
    pub labels: Vec<Label<'a>>,
}

pub struct Drawn<'a> {
    pub shape: &'a Shape,
    pub lines: Vec<Vec<Pixel>>,
}

/// A shape with its lines in degrees.
type Placed<'a> = (&'a Shape, Vec<Vec<Position>>);

impl<'a> Drawing<'a> {
    /// None where there is nothing to draw.
    pub fn of(map: &'a Map) -> Option<Drawing<'a>> {
        let placed: Vec<Placed> = map
            .shapes
            .iter()
            .map(|shape| (shape, map.lines(&shape.outline)))
            .collect();
        let projection = fit(map, &placed)?;
        let mut shapes: Vec<Drawn> = placed
            .into_iter()
            .filter_map(|placed| draw(placed, &projection))
            .collect();
        // Stable, so that the same map always gives the same picture.
        shapes.sort_by_key(|drawn| drawn.shape.class);
        let points = points(map, &projection);
        let labels = labels::place(&shapes, &points, projection.height);
        Some(Drawing {
            projection,
            shapes,
            points,
            labels,
        })
    }
}

/// None where no line is left of a shape.
fn draw<'a>((shape, lines): Placed<'a>, projection: &Projection) -> Option<Drawn<'a>> {
    let lines: Vec<Vec<Pixel>> = lines
        .iter()
        .filter(|line| line.len() > 1)
        .map(|line| line.iter().map(|&at| projection.point(at)).collect())
        .collect();
    (!lines.is_empty()).then_some(Drawn { shape, lines })
}

/// The places with a name that are in the picture, the most important first.
fn points<'a>(map: &'a Map, projection: &Projection) -> Vec<(&'a Point, Pixel)> {
    let mut points: Vec<(&Point, Pixel)> = map
        .points
        .iter()
        .map(|point| (point, projection.point(point.position)))
        .filter(|(_, at)| is_inside(*at, projection.height))
        .collect();
    points.sort_by_key(|(point, _)| point.mark);
    points
}

/// The picture goes as far as people do: a river may flow on past its edge,
/// unless there is nothing else to draw.
fn fit(map: &Map, placed: &[Placed]) -> Option<Projection> {
    let on_lines = |waters: bool| {
        let shapes = placed
            .iter()
            .filter(move |(shape, _)| waters == (shape.class <= Class::Stream));
        shapes.flat_map(|(_, lines)| lines.iter().flatten())
    };
    let at_points = map.points.iter().map(|point| &point.position);
    Projection::fit(on_lines(false))
        .or_else(|| Projection::fit(on_lines(true)))
        .or_else(|| Projection::fit(at_points))
}

fn is_inside((x, y): Pixel, height: f64) -> bool {
    (0.0..=WIDTH).contains(&x) && (0.0..=height).contains(&y)
}
