//! How much sway is left on the pole as entered, and on one whose half period or damping is
//! another.

use super::entry::Entry;
use crate::picture::sway::{Point, Pole};
use crate::picture::swing::Swing;

/// The points of a curve on each side of the entered value, and the errors at its ends: in percent
/// of the half period, and in hundredths of the swing ratio.
pub const POINTS: i32 = 60;
const GREATEST_ERROR: i32 = 30;

/// The smallest swing ratio that is looked at.
const LEAST_RATIO: f64 = 0.02;

/// The errors of a half period that are told in numbers, in percent.
pub const TOLD_PERCENTS: [f64; 9] = [-10.0, -5.0, -2.0, -1.0, 0.0, 1.0, 2.0, 5.0, 10.0];

/// The errors of a swing ratio that are told in numbers.
pub const TOLD_RATIOS: [f64; 9] = [-0.2, -0.1, -0.05, -0.02, 0.0, 0.02, 0.05, 0.1, 0.2];

/// A swing of the pole under an axis as it was entered, and the accelerations of the axis in each
/// table: with the blend, before their rounding, and without the blend.
pub struct WrongPole<'a> {
    swing: Swing,
    plan: Vec<&'a [f64]>,
    exact: Option<Vec<&'a [f64]>>,
    unblended: Option<Vec<&'a [f64]>>,
}

/// What is left by a table, and by the same job without the blend; of several tables the most.
#[derive(Debug, Clone, Copy, PartialEq)]
pub struct Left {
    /// By the table.
    pub plan: f64,
    /// Without the blend, where such a job has a plan.
    pub unblended: Option<f64>,
}

/// What each rounding leaves by itself on the pole as entered; of several tables the most.
#[derive(Debug, Clone, Copy, PartialEq)]
pub struct Roundings {
    /// That of the half period to ticks.
    pub half_period: f64,
    /// That of the damping to a weight.
    pub weight: f64,
    /// That of the cells to fine steps.
    pub cells: f64,
}

impl<'a> WrongPole<'a> {
    /// A swing with the accelerations of tables, each of which begins with the pole at rest.
    pub fn new(
        swing: Swing,
        plan: Vec<&'a [f64]>,
        exact: Option<Vec<&'a [f64]>>,
        unblended: Option<Vec<&'a [f64]>>,
    ) -> WrongPole<'a> {
        WrongPole { swing, plan, exact, unblended }
    }

    /// The swings of the pole under an axis, over its part in each table; none
    /// where the axis has no half period.
    pub fn all_of(tables: &[&'a Entry<'a>]) -> Vec<WrongPole<'a>> {
        let plan: Vec<&[f64]> = tables.iter().map(|entry| entry.accelerations.as_slice()).collect();
        let exact: Option<Vec<&[f64]>> = tables.iter().map(|entry| entry.exact.as_deref()).collect();
        let unblended: Option<Vec<&[f64]>> = tables.iter().map(|entry| entry.unblended.as_deref()).collect();
        let swings = tables.first().map(|entry| entry.swings.as_slice()).unwrap_or_default();
        let of = |&swing| WrongPole::new(swing, plan.clone(), exact.clone(), unblended.clone());
        swings.iter().map(of).collect()
    }

    /// What its tables are called.
    pub fn tables_name(&self) -> &'static str {
        match self.plan.len() {
            1 => "this table",
            _ => "the worst leg",
        }
    }

    /// The latest arrival of its tables.
    pub fn latest_arrival(&self) -> u32 {
        self.plan.iter().map(|accelerations| accelerations.len() as u32 - 1).max().unwrap_or(0)
    }

    /// The swing that was entered.
    pub fn swing(&self) -> Swing {
        self.swing
    }

    /// What is left on the pole as it was entered.
    pub fn left(&self) -> Left {
        self.left_on(self.swing.pole())
    }

    /// What each rounding leaves by itself, where the exact accelerations are known. The exact plan
    /// leaves 0 on a pole that fits half period and weight: what it leaves on one that fits the
    /// first alone is due to the weight, and the other way round. What the cells' rounding leaves
    /// is the sway under what was added to each exact acceleration.
    pub fn roundings(&self) -> Option<Roundings> {
        let (exact, swing) = (self.exact.as_ref()?, self.swing);
        let by_cells =
            self.plan.iter().zip(exact).map(|(cells, exact)| -> Vec<f64> {
                cells.iter().zip(*exact).map(|(cell, exact)| cell - exact).collect()
            });
        let entered = swing.pole();
        Some(Roundings {
            half_period: most(Pole::new(swing.entered_half_period, swing.planned_ratio), exact),
            weight: most(Pole::new(swing.half_period.into(), swing.ratio), exact),
            cells: by_cells.map(|added| entered.left(&added)).fold(0.0, f64::max),
        })
    }

    /// What is left where the true half period is greater by some percent than the entered one;
    /// each swing shrinks as entered.
    pub fn at_percent(&self, percent: f64) -> Left {
        let half_period = self.swing.entered_half_period * (1.0 + percent / 100.0);
        self.left_on(Pole::new(half_period, self.swing.ratio))
    }

    /// What is left where the true swing ratio is greater by an error than the entered one, or
    /// `None` where no pole has such a ratio.
    pub fn at_ratio(&self, error: f64) -> Option<Left> {
        let ratio = self.swing.ratio + error;
        (LEAST_RATIO..=1.0 + 1e-12)
            .contains(&ratio)
            .then(|| self.left_on(Pole::new(self.swing.entered_half_period, ratio.min(1.0))))
    }

    /// What the table leaves on a pole with a half period and a swing ratio.
    pub fn left_where(&self, half_period: f64, ratio: f64) -> f64 {
        most(Pole::new(half_period, ratio), &self.plan)
    }

    fn left_on(&self, pole: Pole) -> Left {
        Left { plan: most(pole, &self.plan), unblended: self.unblended.as_ref().map(|tables| most(pole, tables)) }
    }

    /// What is left over the errors of the half period, in percent.
    pub fn over_percents(&self) -> Vec<(f64, Left)> {
        errors().map(|hundredths| (hundredths, self.at_percent(hundredths))).collect()
    }

    /// What is left over the errors of the swing ratio that a pole can have.
    pub fn over_ratios(&self) -> Vec<(f64, Left)> {
        errors().map(|hundredths| hundredths / 100.0).filter_map(|error| Some((error, self.at_ratio(error)?))).collect()
    }
}

/// The errors of a curve, in hundredths.
pub fn errors() -> impl Iterator<Item = f64> {
    (-POINTS..=POINTS).map(|point| f64::from(GREATEST_ERROR * point) / f64::from(POINTS))
}

/// What is left on a pole, of several tables the most.
fn most(pole: Pole, tables: &[&[f64]]) -> f64 {
    tables.iter().map(|accelerations| pole.left(accelerations)).fold(0.0, f64::max)
}

/// A curve of what is left by the table, and one of what is left without the blend.
pub fn curves(over: &[(f64, Left)]) -> (Vec<Point>, Vec<Point>) {
    let plan = over.iter().map(|&(error, left)| (error, left.plan)).collect();
    let unblended = over.iter().filter_map(|&(error, left)| Some((error, left.unblended?))).collect();
    (plan, unblended)
}

#[cfg(test)]
mod tests {
    use super::*;

    fn swing(half_period: u32, ratio: f64) -> Swing {
        Swing { second: false, half_period, entered_half_period: half_period.into(), ratio, planned_ratio: ratio }
    }

    /// Two equal pushes of one tick, half a period apart, leave 0 on the pole that they are made
    /// for. On an undamped pole whose half period is H, a push of one tick leaves 2a/w² sin(w/2),
    /// and the two leave that times 2 |cos(w h/2)|, with w = π/H.
    #[test]
    fn errors_leave_what_the_formula_says() {
        let mut pushes = [0.0; 30];
        (pushes[0], pushes[12]) = (5.0, 5.0);
        let mut once = [0.0; 30];
        once[0] = 5.0;
        let pole = WrongPole::new(swing(12, 1.0), vec![&pushes], None, Some(vec![&once]));
        assert!(pole.left().plan < 1e-9);
        for percent in [-30.0, -10.0, -1.0, 2.0, 25.0] {
            let w = std::f64::consts::PI / (12.0 * (1.0 + percent / 100.0));
            let of_one = 2.0 * 5.0 / (w * w) * (w / 2.0).sin();
            let left = pole.at_percent(percent);
            assert!((left.unblended.expect("the other motion") - of_one).abs() < 1e-9);
            assert!((left.plan - of_one * 2.0 * (w * 6.0).cos().abs()).abs() < 1e-9, "{percent}");
        }
    }

    /// Of several tables what is left is that of the worst.
    #[test]
    fn the_worst_table_counts() {
        let (mut weak, mut strong) = ([0.0; 8], [0.0; 8]);
        (weak[0], strong[0]) = (1.0, 3.0);
        let of = |tables: &[&[f64]]| WrongPole::new(swing(5, 1.0), tables.to_vec(), None, None).left();
        assert_eq!(of(&[&weak, &strong]), of(&[&strong]));
        assert!(of(&[&strong]).plan > of(&[&weak]).plan);
    }

    /// Only ratios that a pole can have are looked at, on both sides where there are some.
    #[test]
    fn ratios_stay_within_those_of_poles() {
        let rows = [1.0, -1.0, 0.0];
        let pole = WrongPole::new(swing(5, 1.0), vec![&rows], None, None);
        assert_eq!((pole.at_ratio(0.01), pole.at_ratio(-0.99)), (None, None));
        assert_eq!(pole.over_ratios().len(), 61);
        let damped = WrongPole::new(swing(5, 0.5), vec![&rows], None, None);
        assert_eq!(damped.over_ratios().len(), 121);
    }
}
