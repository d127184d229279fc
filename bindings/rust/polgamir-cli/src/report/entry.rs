//! An axis of the report.

use polgamir::sheet::Sheet;
use polgamir::{Axis, Motion, Plan};

use super::wrong_pole::WrongPole;
use crate::exact;
use crate::measure::Measure;
use crate::picture::swing::{Entered, Swing};
use crate::picture::Planned;

/// An axis of the report, in one table.
pub struct Entry<'s> {
    /// Its number.
    pub number: usize,
    /// What it is called.
    pub title: String,
    /// Its entries.
    pub axis: &'s Axis,
    /// In what its numbers are shown.
    pub measure: Measure,
    /// Its part of the table.
    pub rows: Vec<Motion>,
    /// The swings of its pole; none where it has no half period.
    pub swings: Vec<Swing>,
    /// Accelerations in the shown measure per tick²: the cells'.
    pub accelerations: Vec<f64>,
    /// Those before rounding.
    pub exact: Option<Vec<f64>>,
    /// Those of the same job without the blend.
    pub unblended: Option<Vec<f64>>,
}

impl<'s> Entry<'s> {
    /// An axis of a sheet, in its plan and in that without the blend.
    pub fn of(
        sheet: &Sheet,
        (number, axis): (usize, &'s Axis),
        plan: &Plan,
        planned: &Planned,
        unblended: Option<&Planned>,
    ) -> Entry<'s> {
        let measure = Measure::of(sheet, number);
        let scaled = |units: Vec<f64>| -> Vec<f64> { units.into_iter().map(|units| measure.position(units)).collect() };
        let rows: Vec<Motion> = plan.rows().filter_map(|row| row.axis(number)).collect();
        Entry {
            number,
            title: sheet.axis_title(number),
            axis,
            swings: Swing::of(axis, Entered::of(sheet.rounded(), number, axis)),
            accelerations: scaled(planned.accelerations(number)),
            exact: exact::accelerations(axis, &rows).map(scaled),
            unblended: unblended.map(|unblended| scaled(unblended.accelerations(number))),
            rows,
            measure,
        }
    }

    /// The swings of its pole, for what is left of each; none where the axis has no half period.
    pub fn wrong_poles(&self) -> Vec<WrongPole<'_>> {
        WrongPole::all_of(&[self])
    }

    /// The measure of a position, and so of a sway.
    pub fn position_name(&self) -> String {
        self.measure.names()[0].clone()
    }

    /// The measure of a sway, which is in proportion to a real pole's.
    pub fn sway_name(&self) -> String {
        format!("{} in proportion", self.position_name())
    }

    /// How far its blend looks back: an arrival has to be after so many ticks.
    pub fn delay(&self) -> u32 {
        self.axis.half_period + self.axis.second_half_period.unwrap_or(0)
    }

    /// Its half periods, as `30` or `30 + 11`.
    pub fn half_periods(&self) -> String {
        let first = self.axis.half_period.to_string();
        self.axis.second_half_period.map_or(first.clone(), |second| format!("{first} + {second}"))
    }
}
