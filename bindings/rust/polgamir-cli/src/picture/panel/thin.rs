//! Curves with fewer points.

use crate::picture::sway::Point;

/// The points of a curve without those that lie near the line through the points that are kept.
pub fn thinned(points: &[Point]) -> Vec<Point> {
    let Some((&first, others)) = points.split_first() else {
        return Vec::new();
    };
    let mut kept = vec![first];
    let mut corridor = Corridor::from(first);
    let mut before = first;
    for &point in others {
        if !corridor.leads_to(point) {
            kept.push(before);
            corridor = Corridor::from(before);
        }
        corridor.narrow_to(point);
        before = point;
    }
    kept.push(before);
    kept
}

/// The slopes of the lines from a kept point that pass near every point since.
struct Corridor {
    start: Point,
    least: f64,
    greatest: f64,
    /// Whether a point straight above or below the kept one has come since.
    upright: bool,
}

impl Corridor {
    /// How far a line may pass from a point that is left out, in pixels.
    const TOLERANCE: f64 = 0.05;

    /// Every slope from a kept point.
    fn from(start: Point) -> Corridor {
        Corridor { start, least: f64::NEG_INFINITY, greatest: f64::INFINITY, upright: false }
    }

    /// Whether the line from the kept point to a point is in the corridor.
    fn leads_to(&self, (x, y): Point) -> bool {
        let slope = (y - self.start.1) / (x - self.start.0);
        !self.upright && (x == self.start.0 || (self.least..=self.greatest).contains(&slope))
    }

    /// Leaves out the lines that do not pass near a point.
    fn narrow_to(&mut self, (x, y): Point) {
        let run = x - self.start.0;
        if run > 0.0 {
            self.least = self.least.max((y - Self::TOLERANCE - self.start.1) / run);
            self.greatest = self.greatest.min((y + Self::TOLERANCE - self.start.1) / run);
        } else {
            self.upright |= y != self.start.1;
        }
    }
}

#[cfg(test)]
mod tests {
    use super::*;

    /// Straight runs keep their ends, corners and steps stay.
    #[test]
    fn thinning_keeps_corners() {
        let straight: Vec<Point> = (0..100).map(|x| (f64::from(x), 2.0 * f64::from(x))).collect();
        assert_eq!(thinned(&straight), [(0.0, 0.0), (99.0, 198.0)]);
        let steps = [(0.0, 0.0), (5.0, 0.0), (5.0, 9.0), (8.0, 9.0), (10.0, 9.0), (10.0, 0.0)];
        assert_eq!(thinned(&steps), [(0.0, 0.0), (5.0, 0.0), (5.0, 9.0), (10.0, 9.0), (10.0, 0.0)]);
        assert_eq!(thinned(&[]), []);
    }

    /// No point of a thinned curve is further than the tolerance from the curve.
    #[test]
    fn thinning_stays_near() {
        let wave: Vec<Point> = (0..2000).map(|x| (f64::from(x) * 0.1, 40.0 * (f64::from(x) * 0.02).sin())).collect();
        let thin = thinned(&wave);
        assert!(thin.len() < wave.len() / 3, "{}", thin.len());
        for &(x, y) in &wave {
            let after = thin.iter().position(|&(other, _)| other >= x).expect("an end").max(1);
            let ((x0, y0), (x1, y1)) = (thin[after - 1], thin[after]);
            let line = y0 + (x - x0) / (x1 - x0) * (y1 - y0);
            assert!((line - y).abs() < 0.11, "{x} {y} {line}");
        }
    }
}
