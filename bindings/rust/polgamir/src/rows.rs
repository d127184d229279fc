//! The rows of a table, and the motion of an axis in a row.

use std::iter::FusedIterator;
use std::ops::Range;

use crate::plan::Accepted;
use crate::refusal::AxisMask;
use crate::FINE_STEPS;

/// The order in which the rows of a table stand.
#[derive(Debug, Clone, Copy, PartialEq, Eq, Hash)]
pub enum Order {
    /// Row 0 first, the arrival's row last.
    Forwards,
    /// The arrival's row first, row 0 last.
    Backwards,
}

impl Order {
    /// The place of the row of a tick among rows 0 to arrival, or `None` past the arrival.
    pub(crate) fn place(self, tick: u32, arrival: u32) -> Option<usize> {
        let left = arrival.checked_sub(tick)?;
        Some(match self {
            Order::Forwards => tick,
            Order::Backwards => left,
        } as usize)
    }
}

/// The rows of a table by their ticks, to be walked from either end, in whichever order they stand.
#[derive(Debug, Clone)]
pub struct Rows<'t> {
    table: Accepted<'t>,
    ticks: Range<u32>,
}

impl<'t> Rows<'t> {
    /// All rows of a table, ticks 0 to arrival.
    pub(crate) fn of(table: Accepted<'t>) -> Rows<'t> {
        Rows { table, ticks: 0..table.arrival() + 1 }
    }
}

impl<'t> Iterator for Rows<'t> {
    type Item = Row<'t>;

    fn next(&mut self) -> Option<Row<'t>> {
        self.nth(0)
    }

    fn nth(&mut self, count: usize) -> Option<Row<'t>> {
        self.ticks.nth(count).and_then(|tick| self.table.row(tick))
    }

    fn size_hint(&self) -> (usize, Option<usize>) {
        self.ticks.size_hint()
    }
}

impl DoubleEndedIterator for Rows<'_> {
    fn next_back(&mut self) -> Option<Self::Item> {
        self.nth_back(0)
    }

    fn nth_back(&mut self, count: usize) -> Option<Self::Item> {
        self.ticks.nth_back(count).and_then(|tick| self.table.row(tick))
    }
}

impl ExactSizeIterator for Rows<'_> {}

impl FusedIterator for Rows<'_> {}

/// The row of one tick.
#[derive(Debug, Clone, Copy, PartialEq, Eq)]
pub struct Row<'t> {
    pub(crate) tick: u32,
    pub(crate) mask: AxisMask,
    pub(crate) cells: &'t [i64],
}

impl<'t> Row<'t> {
    /// The row's tick.
    pub const fn tick(&self) -> u32 {
        self.tick
    }

    /// The row's cells: for each axis from the lowest up its position, velocity
    /// and acceleration in fine steps.
    pub const fn cells(&self) -> &'t [i64] {
        self.cells
    }

    /// The motion of each axis from the lowest up, with the axis's number.
    pub fn axes(&self) -> impl Iterator<Item = (usize, Motion)> + 't {
        self.mask.axes().zip(self.cells.chunks_exact(3).map(Motion::from_cells))
    }

    /// The motion of an axis, or `None` where the job does not have that axis.
    pub fn axis(&self, number: usize) -> Option<Motion> {
        self.axes().find_map(|(axis, motion)| (axis == number).then_some(motion))
    }
}

/// Position, velocity and acceleration of one axis at one tick, in fine steps:
/// 1/256 unit, per tick, per tick².
#[derive(Debug, Clone, Copy, PartialEq, Eq, Hash)]
pub struct Motion {
    /// Position in fine steps.
    pub position: i64,
    /// Velocity in fine steps per tick.
    pub velocity: i64,
    /// Acceleration in fine steps per tick².
    pub acceleration: i64,
}

impl Motion {
    /// The motion of three cells.
    fn from_cells(cells: &[i64]) -> Motion {
        Motion { position: cells[0], velocity: cells[1], acceleration: cells[2] }
    }

    /// Position in units.
    pub fn position_in_units(&self) -> f64 {
        in_units(self.position)
    }

    /// Velocity in units per tick.
    pub fn velocity_in_units(&self) -> f64 {
        in_units(self.velocity)
    }

    /// Acceleration in units per tick².
    pub fn acceleration_in_units(&self) -> f64 {
        in_units(self.acceleration)
    }
}

/// Fine steps as units. No cell of a table is past 2^52 fine steps in size, and
/// up to there the result is exact.
pub fn in_units(fine_steps: i64) -> f64 {
    fine_steps as f64 / FINE_STEPS as f64
}
