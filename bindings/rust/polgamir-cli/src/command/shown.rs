//! The rows that are printed: those of a whole table, or a part of them.

use std::ops::RangeInclusive;

use polgamir::{Accepted, AxisMask, Part, Row};

/// Rows of an accepted job, for a printer.
pub struct Shown<'t> {
    arrival: u32,
    mask: AxisMask,
    rows: Vec<Row<'t>>,
    whole: Option<Accepted<'t>>,
}

impl<'t> Shown<'t> {
    /// All rows.
    pub fn whole(accepted: &Accepted<'t>) -> Shown<'t> {
        let rows = accepted.rows().collect();
        Shown { arrival: accepted.arrival(), mask: accepted.axes(), rows, whole: Some(*accepted) }
    }

    /// The rows of a part.
    pub fn part(part: &Part<'t>) -> Shown<'t> {
        Shown { arrival: part.arrival(), mask: part.axes(), rows: part.rows().collect(), whole: None }
    }

    /// The job's arrival, whether its row is among these or not.
    pub fn arrival(&self) -> u32 {
        self.arrival
    }

    /// The axes of the job.
    pub fn axes(&self) -> AxisMask {
        self.mask
    }

    /// The rows, by tick.
    pub fn rows(&self) -> impl ExactSizeIterator<Item = Row<'t>> + '_ {
        self.rows.iter().copied()
    }

    /// The ticks of a part's rows; `None` where all rows are shown.
    pub fn ticks_of_part(&self) -> Option<RangeInclusive<u32>> {
        match (&self.whole, self.rows.as_slice()) {
            (None, [first, .., last]) => Some(first.tick()..=last.tick()),
            (None, [only]) => Some(only.tick()..=only.tick()),
            _ => None,
        }
    }

    /// The least and the greatest position cell of an axis; `None` where only a part is shown.
    pub fn position_range(&self, axis: usize) -> Option<RangeInclusive<i64>> {
        self.whole.and_then(|accepted| accepted.position_range(axis))
    }
}
