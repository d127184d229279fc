//! Entries that no whole number of ticks or units meets, and what is planned in their place.

use std::fmt;

use super::fraction::{Fraction, Rounding};
use super::quantity::Place;
use super::worked::Measured;
use crate::job::Axis;
use crate::words::WordKind;
use crate::FINE_STEPS;

/// An entry that was rounded: what was entered, what is planned, and by how much that is off.
/// Printed, it is a sentence for a crew:
/// `line 6: axis 0 pan: speed limit 60.3 degree/s is planned as 60 degree/s (120 units per tick),
/// 0.3 degree/s less`. That of a half period ends with what a pole that swings as entered can keep
/// of its sway.
#[derive(Debug, Clone, PartialEq)]
pub struct Rounded {
    /// The line, from 1.
    pub line: usize,
    /// The axis that the entry belongs to; `None` for one of the whole sheet.
    pub axis: Option<usize>,
    /// Which number of the axis it is, or [`WordKind::Arrival`]; `None` for one of windows, dwells
    /// and stops.
    pub entry: Option<WordKind>,
    /// What was entered, as it stands on the sheet: `half period 0.425 s`.
    pub entered: String,
    /// What is planned: `0.42 s (21 ticks)`.
    pub planned: String,
    /// By how much it is off: `0.005 s less`.
    pub off: String,
    /// Of a half period, the most that is left of the sway of a pole that swings as
    /// entered: `0.31 degree`. It is the proved bound of [`Axis::sway_bound`], before
    /// rounding, of every table of the axis.
    pub sway: Option<String>,
    /// What is planned less what was entered, in ticks or units.
    steps_off: Fraction,
    whose: String,
    /// Where another measure was entered, what it comes to: `a half period of 0.425 s`.
    comes_to: Option<String>,
}

impl Rounded {
    /// An entry for which a whole number is planned; `None` where it is exactly that.
    pub fn new(place: &Place, measured: &Measured, planned: i64) -> Option<Rounded> {
        let in_steps = Fraction::whole(planned);
        let in_measure = in_steps.times(&measured.step);
        let off = in_measure.minus(&measured.value);
        if off.is_zero() {
            return None;
        }
        let short = |number: &Fraction, digits| number.shown(digits, Rounding::Nearest);
        let named = |number: String| format!("{number} {}", measured.name);
        let steps = format!("{planned} {}", measured.quantity.steps(planned.unsigned_abs() == 1));
        let more = if off.is_negative() { "less" } else { "more" };
        Some(Rounded {
            line: place.line,
            axis: place.axis,
            entry: place.entry,
            entered: format!("{} {}", place.name, place.entered),
            planned: match measured.is_scaled {
                true => format!("{} ({steps})", named(short(&in_measure, 9))),
                false => steps,
            },
            off: format!("{} {more}", named(short(&off.size(), 3))),
            sway: None,
            steps_off: off.over(&measured.step),
            whose: place.whose.clone(),
            comes_to: measured.is_worked_out.then(|| format!("a half period of {}", named(short(&measured.value, 9)))),
        })
    }
}

impl Rounded {
    /// What is planned less what was entered, in ticks or units.
    pub fn steps_off(&self) -> f64 {
        self.steps_off.shown(17, Rounding::Nearest).parse().unwrap_or(0.0)
    }

    /// Works out what a half period of an axis that is off leaves, in a unit's size and name. A
    /// number that the planner refuses leaves nothing to be told.
    pub fn weigh(&mut self, axis: &Axis, unit: (&Fraction, &str)) {
        // The error in ten thousandths of a tick, away from 0: true less planned.
        let size = self.steps_off.size().times(&Fraction::whole(10_000)).rounded(Rounding::Up);
        let Some(size) = size.and_then(|size| i32::try_from(size).ok()) else {
            return;
        };
        let error = crate::Fraction::new(if self.steps_off.is_negative() { size } else { -size }, 10_000);
        let left = match self.entry {
            Some(WordKind::HalfPeriod) => axis.sway_bound(1, error, crate::Fraction::ZERO),
            Some(WordKind::SecondHalfPeriod) => axis.second_sway_bound(1, error, crate::Fraction::ZERO),
            _ => return,
        };
        let fine_steps = left.ok().and_then(|left| i64::try_from(left.exact).ok());
        let (size, name) = unit;
        let told = |fine_steps| {
            let sway = Fraction::whole(fine_steps).over(&Fraction::whole(FINE_STEPS)).times(size);
            format!("{} {name}", sway.shown(3, Rounding::Up))
        };
        self.sway = fine_steps.map(told);
    }
}

impl fmt::Display for Rounded {
    fn fmt(&self, f: &mut fmt::Formatter<'_>) -> fmt::Result {
        write!(f, "line {}: ", self.line)?;
        if !self.whose.is_empty() {
            write!(f, "{}: ", self.whose)?;
        }
        match &self.comes_to {
            Some(what) => write!(f, "{}, {what}, is planned as {}, {}", self.entered, self.planned, self.off)?,
            None => write!(f, "{} is planned as {}, {}", self.entered, self.planned, self.off)?,
        }
        match &self.sway {
            Some(sway) => write!(
                f,
                "; a pole that swings as entered keeps a sway of at most {sway} (a real pole's is in proportion to it)"
            ),
            None => Ok(()),
        }
    }
}
