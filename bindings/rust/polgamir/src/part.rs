//! Rows in parts: for a controller that has no room for a whole table.

use std::iter::FusedIterator;

use crate::job::{Arrival, Job};
use crate::library;
use crate::refusal::{Answer, AxisMask, Refusal};
use crate::rows::{Motion, Row};
use crate::AXES;

/// Plans a job, and writes its rows from a first one on to the lent cells: as many whole rows as
/// they hold, up to the arrival's.
///
/// The rows are those of the table that [`plan()`](crate::plan()) writes. No row before the first
/// one is worked out. Past the arrival, and where the cells hold no row, none is written; cells
/// after the last row stay as they were. A refused job writes nothing.
///
/// # Errors
///
/// The first refusal in checking order, of those of [`plan()`](crate::plan()) before 10, which
/// never comes.
pub fn plan_part<'t>(job: &Job, first: u32, table: &'t mut [i64]) -> Result<Part<'t>, Refusal> {
    let (answer, rows) = library::plan_job_part(job, first, table);
    Part::from_answer(answer, first, rows, table)
}

/// Plans the job that words hold, and writes its rows from a first one on, as [`plan_part`] does.
///
/// # Errors
///
/// The first refusal in checking order, of those of
/// [`plan_words`](crate::plan_words) before 10, which never comes.
pub fn plan_words_part<'t>(words: &[u32], first: u32, table: &'t mut [i64]) -> Result<Part<'t>, Refusal> {
    let (answer, rows) = library::plan_words_part(words, first, table);
    Part::from_answer(answer, first, rows, table)
}

/// Some rows of an accepted job, in lent cells: what [`plan_part`] gives.
#[derive(Debug, Clone, Copy, PartialEq, Eq)]
pub struct Part<'t> {
    arrival: u32,
    mask: AxisMask,
    first: u32,
    rows: u32,
    cells: &'t [i64],
}

impl<'t> Part<'t> {
    /// The part of an answer with number 0, or the refusal.
    fn from_answer(answer: Answer, first: u32, rows: u32, table: &'t mut [i64]) -> Result<Part<'t>, Refusal> {
        if answer.number != 0 {
            return Err(Refusal::from_answer(answer));
        }
        let mask = AxisMask(answer.mask);
        let cells = row_cells(mask) * rows as usize;
        Ok(Part { arrival: answer.arrival, mask, first, rows, cells: &table[..cells] })
    }

    /// The tick at which every axis is on its target: the last row of the whole table.
    pub const fn arrival(&self) -> u32 {
        self.arrival
    }

    /// The axes of the job.
    pub const fn axes(&self) -> AxisMask {
        self.mask
    }

    /// How many rows were written.
    pub const fn len(&self) -> u32 {
        self.rows
    }

    /// Whether none was.
    pub const fn is_empty(&self) -> bool {
        self.rows == 0
    }

    /// The cells of these rows, row after row.
    pub const fn cells(&self) -> &'t [i64] {
        self.cells
    }

    /// The row of a tick, or `None` where this part does not have it.
    pub fn row(&self, tick: u32) -> Option<Row<'t>> {
        let place = tick.checked_sub(self.first).filter(|&place| place < self.rows)?;
        let width = row_cells(self.mask);
        let cells = self.cells.get(width * place as usize..)?.get(..width)?;
        Some(Row { tick, mask: self.mask, cells })
    }

    /// The rows, by tick.
    pub fn rows(&self) -> impl Iterator<Item = Row<'t>> {
        let part = *self;
        (0..self.rows).filter_map(move |place| part.row(part.first + place))
    }
}

/// The cells of a row.
fn row_cells(mask: AxisMask) -> usize {
    3 * mask.0.count_ones() as usize
}

/// The row of one tick, with its cells in the value itself.
#[derive(Debug, Clone, Copy, PartialEq, Eq)]
pub struct OwnedRow {
    tick: u32,
    mask: AxisMask,
    cells: [i64; 3 * AXES],
}

impl OwnedRow {
    fn of(row: Row<'_>) -> OwnedRow {
        let mut cells = [0; 3 * AXES];
        cells[..row.cells().len()].copy_from_slice(row.cells());
        OwnedRow { tick: row.tick(), mask: row.mask, cells }
    }

    /// The row, with its cells borrowed from this value.
    pub fn row(&self) -> Row<'_> {
        Row { tick: self.tick, mask: self.mask, cells: &self.cells[..row_cells(self.mask)] }
    }

    /// The row's tick.
    pub const fn tick(&self) -> u32 {
        self.tick
    }

    /// The motion of an axis, or `None` where the job does not have that axis.
    pub fn axis(&self, number: usize) -> Option<Motion> {
        self.row().axis(number)
    }

    /// The row's cells: for each axis from the lowest up its position, velocity
    /// and acceleration in fine steps.
    pub fn cells(&self) -> &[i64] {
        &self.cells[..row_cells(self.mask)]
    }
}

/// The rows of ticks 0 to arrival, planned a buffer at a time: what [`Job::rows_in_parts`] gives.
#[derive(Debug)]
pub struct RowsInParts<'b> {
    /// The job with its arrival asked for, so that no part searches again.
    job: Job,
    arrival: u32,
    mask: AxisMask,
    buffer: &'b mut [i64],
    /// The rows that the buffer holds: the first tick of them, and how many.
    held: (u32, u32),
    /// The next tick.
    tick: u32,
}

impl RowsInParts<'_> {
    /// The tick at which every axis is on its target, the last row's.
    pub const fn arrival(&self) -> u32 {
        self.arrival
    }

    /// The axes of the job.
    pub const fn axes(&self) -> AxisMask {
        self.mask
    }
}

impl Iterator for RowsInParts<'_> {
    type Item = OwnedRow;

    fn next(&mut self) -> Option<OwnedRow> {
        if self.tick > self.arrival {
            return None;
        }
        let (first, rows) = self.held;
        if self.tick - first >= rows {
            // The same job with its own arrival asked for is accepted with
            // every first row; this is proved.
            self.held = (self.tick, plan_part(&self.job, self.tick, self.buffer).ok()?.len());
        }
        let (first, rows) = self.held;
        let cells = &self.buffer[..row_cells(self.mask) * rows as usize];
        let part = Part { arrival: self.arrival, mask: self.mask, first, rows, cells };
        let row = part.row(self.tick).map(OwnedRow::of);
        self.tick += 1;
        row
    }

    fn size_hint(&self) -> (usize, Option<usize>) {
        let left = (self.arrival + 1 - self.tick) as usize;
        (left, Some(left))
    }
}

impl ExactSizeIterator for RowsInParts<'_> {}

impl FusedIterator for RowsInParts<'_> {}

impl Job {
    /// The rows of this job, planned a part at a time into a buffer of the
    /// caller's; no whole table is held.
    ///
    /// ```
    /// # use polgamir::{Axis, Damping, Job, Refusal, RestPoint, Target};
    /// # let start = RestPoint { position: 0, velocity: 0 };
    /// # let target = Target::still(900);
    /// # let (damping, second_half_period) = (Damping::NONE, None);
    /// # let pan = Axis {
    /// #     start, speed_limit: 40, acceleration_limit: 2, half_period: 12, damping, second_half_period, target,
    /// # };
    /// let job = Job::earliest().with_axis(0, pan);
    /// let mut sixteen_rows = [0; 3 * 16];
    /// for row in job.rows_in_parts(&mut sixteen_rows)? {
    ///     println!("tick {}: {:?}", row.tick(), row.axis(0));
    /// }
    /// # Ok::<(), Refusal>(())
    /// ```
    ///
    /// # Errors
    ///
    /// Those of [`plan()`](crate::plan()); 10 where the buffer does not hold one row, 3 × axes
    /// cells.
    pub fn rows_in_parts<'b>(&self, buffer: &'b mut [i64]) -> Result<RowsInParts<'b>, Refusal> {
        let part = plan_part(self, 0, buffer)?;
        let (arrival, mask, rows) = (part.arrival(), part.axes(), part.len());
        if rows == 0 {
            return Err(Refusal::TableTooShort { arrival });
        }
        let job = Job { arrival: Arrival::from(arrival), ..self.clone() };
        Ok(RowsInParts { job, arrival, mask, buffer, held: (0, rows), tick: 0 })
    }
}
