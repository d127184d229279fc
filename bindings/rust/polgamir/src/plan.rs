//! The calls for a table, and the table that they give.

use std::ops::RangeInclusive;

use crate::job::Job;
use crate::library;
use crate::refusal::{Answer, AxisMask, Refusal};
use crate::rows::{Order, Row, Rows};
use crate::{AXES, LATEST_ARRIVAL};

/// The cells of a table with a number of axes and an arrival: 3 × axes × (arrival + 1), or the
/// greatest `usize` where that is more than a `usize` holds.
pub const fn cells_needed(axes: u32, arrival: u32) -> usize {
    let row = (axes as usize).saturating_mul(3);
    row.saturating_mul((arrival as usize).saturating_add(1))
}

/// A number of cells that is enough for every job: six axes that arrive at tick 4,096.
pub const MOST_CELLS: usize = cells_needed(AXES as u32, LATEST_ARRIVAL);

/// Plans a job, and writes its table to the lent cells.
///
/// An accepted job writes the first [`cells_needed`] cells and leaves those after them as they
/// were; a refused job writes nothing. The call has no state of its own: any number of threads may
/// plan at the same time, each into its own table.
///
/// # Errors
///
/// The first refusal in checking order, of those in [`Refusal`] except 2 and 14, which only words
/// can get.
pub fn plan<'t>(job: &Job, table: &'t mut [i64]) -> Result<Accepted<'t>, Refusal> {
    plan_in(job, Order::Forwards, table)
}

/// Plans a job as [`plan()`] does, and writes its rows from the arrival backwards: the arrival's
/// row first and row 0 last. Each row is the one that [`plan()`] writes for its tick.
///
/// # Errors
///
/// Those of [`plan()`].
pub fn plan_backwards<'t>(job: &Job, table: &'t mut [i64]) -> Result<Accepted<'t>, Refusal> {
    plan_in(job, Order::Backwards, table)
}

/// Plans a job with its rows in an order.
fn plan_in<'t>(job: &Job, order: Order, table: &'t mut [i64]) -> Result<Accepted<'t>, Refusal> {
    let answer = library::plan_job(job, order, table);
    Accepted::from_answer(answer, order, table)
}

/// Plans the job that words hold, and writes its table to the lent cells, as [`plan()`] does.
///
/// # Errors
///
/// The first refusal in checking order, of those in [`Refusal`] except 12 and 13: words
/// have a weight, and no windows.
pub fn plan_words<'t>(words: &[u32], table: &'t mut [i64]) -> Result<Accepted<'t>, Refusal> {
    let answer = library::plan_words(words, Order::Forwards, table);
    Accepted::from_answer(answer, Order::Forwards, table)
}

/// Plans the job that words hold as [`plan_words`] does, and writes its rows from the arrival
/// backwards.
///
/// # Errors
///
/// Those of [`plan_words`].
pub fn plan_words_backwards<'t>(words: &[u32], table: &'t mut [i64]) -> Result<Accepted<'t>, Refusal> {
    let answer = library::plan_words(words, Order::Backwards, table);
    Accepted::from_answer(answer, Order::Backwards, table)
}

/// An accepted job: its arrival, and its table in the lent cells.
#[derive(Debug, Clone, Copy, PartialEq, Eq)]
pub struct Accepted<'t> {
    arrival: u32,
    mask: AxisMask,
    order: Order,
    cells: &'t [i64],
}

impl<'t> Accepted<'t> {
    /// The accepted job of an answer with number 0, or the refusal.
    fn from_answer(answer: Answer, order: Order, table: &'t mut [i64]) -> Result<Accepted<'t>, Refusal> {
        if answer.number != 0 {
            return Err(Refusal::from_answer(answer));
        }
        let cells = cells_needed(answer.mask.count_ones(), answer.arrival);
        Ok(Accepted { arrival: answer.arrival, mask: AxisMask(answer.mask), order, cells: &table[..cells] })
    }

    /// The tick at which every axis is on its target.
    pub const fn arrival(&self) -> u32 {
        self.arrival
    }

    /// The axes of the job.
    pub const fn axes(&self) -> AxisMask {
        self.mask
    }

    /// The order in which the rows stand in the table.
    pub const fn order(&self) -> Order {
        self.order
    }

    /// The table: row after row in its [`order`](Accepted::order), in each row the axes from the
    /// lowest up, for each its position, velocity and acceleration in fine steps.
    pub const fn cells(&self) -> &'t [i64] {
        self.cells
    }

    /// The row of a tick, in whichever order the rows stand, or `None` past the arrival.
    pub fn row(&self, tick: u32) -> Option<Row<'t>> {
        let mask = self.mask;
        let width = 3 * mask.0.count_ones() as usize;
        let place = self.order.place(tick, self.arrival)?;
        let cells = self.cells.chunks_exact(width).nth(place)?;
        Some(Row { tick, mask, cells })
    }

    /// The rows of ticks 0 to arrival, by tick in whichever order they stand;
    /// `rows().rev()` goes from the arrival back.
    pub fn rows(&self) -> Rows<'t> {
        Rows::of(*self)
    }

    /// The least and the greatest position of an axis among the rows, in fine steps, or `None`
    /// where the job does not have that axis. End stops are not planned for: hold these against
    /// them. Between two rows a head that turns back goes past them by at most an eighth of what
    /// its acceleration covers in a tick².
    pub fn position_range(&self, axis: usize) -> Option<RangeInclusive<i64>> {
        let positions = self.rows().filter_map(|row| row.axis(axis)).map(|motion| motion.position..=motion.position);
        positions.reduce(|all, one| *all.start().min(one.start())..=*all.end().max(one.end()))
    }
}

/// `for` walks the rows of ticks 0 to arrival.
impl<'t> IntoIterator for Accepted<'t> {
    type Item = Row<'t>;
    type IntoIter = Rows<'t>;

    fn into_iter(self) -> Rows<'t> {
        self.rows()
    }
}

/// `for` walks the rows of ticks 0 to arrival.
impl<'t> IntoIterator for &Accepted<'t> {
    type Item = Row<'t>;
    type IntoIter = Rows<'t>;

    fn into_iter(self) -> Rows<'t> {
        self.rows()
    }
}

/// An accepted job with a table of its own: what [`Job::plan`] and [`Job::plan_backwards`] give.
#[derive(Debug, Clone, PartialEq, Eq)]
pub struct Plan {
    arrival: u32,
    mask: AxisMask,
    order: Order,
    cells: Vec<i64>,
}

impl Plan {
    /// The plan as one that borrows its table.
    pub fn accepted(&self) -> Accepted<'_> {
        Accepted { arrival: self.arrival, mask: self.mask, order: self.order, cells: &self.cells }
    }

    /// The tick at which every axis is on its target.
    pub const fn arrival(&self) -> u32 {
        self.arrival
    }

    /// The axes of the job.
    pub const fn axes(&self) -> AxisMask {
        self.mask
    }

    /// The order in which the rows stand in the table.
    pub const fn order(&self) -> Order {
        self.order
    }

    /// The table: row after row in its [`order`](Plan::order), in each row the axes from the lowest
    /// up, for each its position, velocity and acceleration in fine steps.
    pub fn cells(&self) -> &[i64] {
        &self.cells
    }

    /// The row of a tick, in whichever order the rows stand, or `None` past the arrival.
    pub fn row(&self, tick: u32) -> Option<Row<'_>> {
        self.accepted().row(tick)
    }

    /// The rows of ticks 0 to arrival, by tick in whichever order they stand;
    /// `rows().rev()` goes from the arrival back.
    pub fn rows(&self) -> Rows<'_> {
        self.accepted().rows()
    }

    /// The least and the greatest position of an axis among the rows, in fine
    /// steps: [`Accepted::position_range`].
    ///
    /// ```
    /// # use polgamir::{Axis, Damping, Job, Refusal, RestPoint, Target};
    /// # let (half_period, damping, second_half_period) = (0, Damping::NONE, None);
    /// # let (speed_limit, acceleration_limit, target) = (10, 1, Target::still(4));
    /// // A head that starts away from its target goes on for a while.
    /// let start = RestPoint { position: 0, velocity: -3 };
    /// let pan = Axis { start, speed_limit, acceleration_limit, half_period, damping, second_half_period, target };
    /// let plan = Job::earliest().with_axis(0, pan).plan()?;
    /// let range = plan.position_range(0).expect("an axis of the job");
    /// assert!(range.contains(&(-4 * 256)) && !range.contains(&(-5 * 256)));
    /// # Ok::<(), Refusal>(())
    /// ```
    pub fn position_range(&self, axis: usize) -> Option<RangeInclusive<i64>> {
        self.accepted().position_range(axis)
    }

    /// The table's cells, to keep.
    pub fn into_cells(self) -> Vec<i64> {
        self.cells
    }
}

/// `for` walks the rows of ticks 0 to arrival.
impl<'p> IntoIterator for &'p Plan {
    type Item = Row<'p>;
    type IntoIter = Rows<'p>;

    fn into_iter(self) -> Rows<'p> {
        self.rows()
    }
}

impl Job {
    /// Plans this job into a table of its own. [`plan()`] is the call for lent memory.
    ///
    /// ```
    /// # use polgamir::{Axis, Damping, Job, Refusal, RestPoint, Target};
    /// # let start = RestPoint { position: 0, velocity: 0 };
    /// # let target = Target::still(4);
    /// # let (half_period, damping, second_half_period) = (0, Damping::NONE, None);
    /// # let (speed_limit, acceleration_limit) = (10, 1);
    /// # let pan = Axis { start, speed_limit, acceleration_limit, half_period, damping, second_half_period, target };
    /// let plan = Job::earliest().with_axis(0, pan).plan()?;
    /// for row in plan.rows().rev() {
    ///     println!("tick {}: {:?}", row.tick(), row.axis(0));
    /// }
    /// assert_eq!(plan.row(4).and_then(|row| row.axis(0)).map(|pan| pan.position), Some(4 * 256));
    /// # Ok::<(), Refusal>(())
    /// ```
    ///
    /// # Errors
    ///
    /// As [`plan()`], except 10: the table is as long as it needs to be.
    pub fn plan(&self) -> Result<Plan, Refusal> {
        self.plan_in(Order::Forwards)
    }

    /// Plans this job into a table of its own whose rows stand from the arrival
    /// backwards: what a display takes that draws the approach to the target first.
    /// [`plan_backwards`] is the call for lent memory.
    ///
    /// # Errors
    ///
    /// As [`Job::plan`].
    pub fn plan_backwards(&self) -> Result<Plan, Refusal> {
        self.plan_in(Order::Backwards)
    }

    fn plan_in(&self, order: Order) -> Result<Plan, Refusal> {
        let mut cells = vec![0; self.enough_cells()];
        let Accepted { arrival, mask, cells: written, .. } = plan_in(self, order, &mut cells)?;
        let written = written.len();
        cells.truncate(written);
        cells.shrink_to_fit();
        Ok(Plan { arrival, mask, order, cells })
    }

    /// The arrival that this job's table would have; no table is written.
    ///
    /// # Errors
    ///
    /// As [`Job::plan`].
    pub fn arrival_found(&self) -> Result<u32, Refusal> {
        match plan(self, &mut []) {
            Ok(accepted) => Ok(accepted.arrival()),
            Err(Refusal::TableTooShort { arrival }) => Ok(arrival),
            Err(refusal) => Err(refusal),
        }
    }
}
