//! From degrees to pixels: flat, true in scale at the middle of the map,
//! which is enough for what fits on a screen.

use super::Position;

/// How many metres a degree of latitude has.
const METRES: f64 = 111_195.0;
/// The picture's width, and the most and the least that it is high.
pub const WIDTH: f64 = 1000.0;
const HIGHEST: f64 = 1400.0;
const LOWEST: f64 = 400.0;
/// What is left free around the map.
const MARGIN: f64 = 20.0;
/// The least that a map spans, in degrees: about a metre.
const LEAST: f64 = 1e-5;

pub struct Projection {
    middle: Position,
    /// Pixels a degree of longitude and of latitude.
    scale: (f64, f64),
    pub height: f64,
}

impl Projection {
    /// The one that fits all these places into the picture; none where there
    /// are no places.
    pub fn fit<'a>(places: impl Iterator<Item = &'a Position>) -> Option<Projection> {
        let mut bounds: Option<[f64; 4]> = None;
        for &(lat, lon) in places {
            let [south, north, west, east] = bounds.unwrap_or([lat, lat, lon, lon]);
            bounds = Some([south.min(lat), north.max(lat), west.min(lon), east.max(lon)]);
        }
        let [south, north, west, east] = bounds?;
        let middle = ((south + north) / 2.0, (west + east) / 2.0);
        // Degrees of longitude are shorter away from the equator; at a pole
        // they have no length, so that a little is left to divide by.
        let shrink = middle.0.to_radians().cos().max(0.01);
        let width = ((east - west) * shrink).max(LEAST);
        let height = (north - south).max(LEAST);
        let inner = |outer: f64| outer - 2.0 * MARGIN;
        let scale = (inner(WIDTH) / width).min(inner(HIGHEST) / height);
        Some(Projection {
            middle,
            scale: (scale * shrink, scale),
            height: (height * scale + 2.0 * MARGIN).clamp(LOWEST, HIGHEST),
        })
    }

    /// Pixels from the left and from the top.
    pub fn point(&self, (lat, lon): Position) -> (f64, f64) {
        let x = WIDTH / 2.0 + (lon - self.middle.1) * self.scale.0;
        let y = self.height / 2.0 - (lat - self.middle.0) * self.scale.1;
        (x, y)
    }

    /// How many pixels a metre has.
    pub fn metre(&self) -> f64 {
        self.scale.1 / METRES
    }
}

/// The longest round distance that fits into so many pixels: its metres.
pub fn scale_bar(metre: f64, longest: f64) -> f64 {
    let metres = longest / metre;
    let power = 10f64.powf(metres.log10().floor());
    let step = [5.0, 2.0, 1.0]
        .into_iter()
        .find(|step| step * power <= metres);
    step.unwrap_or(1.0) * power
}

/// `500 m`, `2 km`.
pub fn distance(metres: f64) -> String {
    if metres >= 1000.0 {
        format!("{} km", metres / 1000.0)
    } else {
        format!("{metres} m")
    }
}

#[cfg(test)]
mod tests {
    use super::{Projection, WIDTH, distance, scale_bar};

    #[test]
    fn the_corners_of_a_map_are_inside_the_picture() {
        let corners = [(47.0, 9.4), (47.3, 9.7)];
        let projection = Projection::fit(corners.iter()).expect("there are places");
        for corner in corners {
            let (x, y) = projection.point(corner);
            assert!((0.0..=WIDTH).contains(&x), "{x}");
            assert!((0.0..=projection.height).contains(&y), "{y}");
        }
    }

    #[test]
    fn one_place_and_none_are_no_trouble() {
        let projection = Projection::fit([(90.0, 0.0)].iter()).expect("there is a place");
        assert_eq!(projection.point((90.0, 0.0)).0, WIDTH / 2.0);
        assert!(Projection::fit([].iter()).is_none());
    }

    #[test]
    fn a_scale_bar_is_round_and_fits() {
        for (metre, metres) in [(0.1, 1000.0), (0.11, 1000.0), (0.03, 5000.0), (1.0, 100.0)] {
            assert_eq!(scale_bar(metre, 190.0), metres, "{metre}");
        }
        assert_eq!(distance(2000.0), "2 km");
        assert_eq!(distance(500.0), "500 m");
        assert_eq!(distance(0.5), "0.5 m");
    }
}
