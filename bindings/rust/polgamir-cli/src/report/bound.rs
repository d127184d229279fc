//! The proved bound on what a table leaves on a pole that is another than
//! entered, in the measure of its axis.

use polgamir::{in_units, Fraction, SwayLeft};

use super::entry::Entry;
use super::wrong_pole::WrongPole;
use crate::picture::swing::Swing;

/// The parts of a tick, and of a swing ratio, in which an error is told to the bound.
const PARTS: u32 = 10_000;

/// The bound of an axis for one swing of its pole.
pub struct Bound<'a> {
    entry: &'a Entry<'a>,
    swing: Swing,
    arrival: u32,
}

impl<'a> Bound<'a> {
    /// The bound of a swing of an axis; of several tables that with the latest
    /// arrival, which is the greatest.
    pub fn of(entry: &'a Entry<'a>, pole: &WrongPole) -> Bound<'a> {
        Bound { entry, swing: pole.swing(), arrival: pole.latest_arrival() }
    }

    /// Where the true half period is greater by some percent than the entered one.
    pub fn at_percent(&self, percent: f64) -> Option<f64> {
        self.at(self.swing.entered_half_period * (1.0 + percent / 100.0), self.swing.ratio)
    }

    /// Where the true swing ratio is greater by an error than the entered one.
    pub fn at_ratio(&self, error: f64) -> Option<f64> {
        self.at(self.swing.entered_half_period, (self.swing.ratio + error).min(1.0))
    }

    /// On a pole with a half period and a swing ratio, as rounded: the greatest of the bounds for
    /// the errors on either side of its own, of those that have one. `None` where there is none.
    pub fn at(&self, half_period: f64, ratio: f64) -> Option<f64> {
        let half_periods = around(half_period - f64::from(self.swing.half_period));
        let ratios = self.ratio_errors(ratio);
        let bounds = half_periods.iter().flat_map(|&half_period| {
            ratios.iter().filter_map(move |&ratio| self.left(half_period, ratio)).map(|left| left.rounded)
        });
        bounds.max().map(|fine_steps| self.entry.measure.position(in_units(fine_steps as i64)))
    }

    /// The errors on either side of that of a swing ratio; no ratio is above 1,
    /// whose error is a fraction itself.
    fn ratio_errors(&self, ratio: f64) -> [Fraction; 2] {
        match (ratio, self.entry.axis.damping.weight()) {
            (1.0, Some(weight)) if !self.swing.second => [Fraction::new(256 - 2 * weight as i32, 256 - weight); 2],
            _ => around(ratio - self.swing.planned_ratio),
        }
    }

    fn left(&self, half_period_error: Fraction, ratio_error: Fraction) -> Option<SwayLeft> {
        let (axis, arrival) = (self.entry.axis, self.arrival);
        match self.swing.second {
            true => axis.second_sway_bound(arrival, half_period_error, ratio_error).ok(),
            false => axis.sway_bound(arrival, half_period_error, ratio_error).ok(),
        }
    }
}

/// The fractions on either side of an error, or twice the same.
fn around(error: f64) -> [Fraction; 2] {
    let parts = error * f64::from(PARTS);
    let nearest = parts.round();
    // A float that stands for a whole number of parts is taken for it.
    let ends = if (parts - nearest).abs() < 1e-6 { [nearest; 2] } else { [parts.floor(), parts.ceil()] };
    ends.map(|parts| Fraction::new(parts as i32, PARTS))
}
