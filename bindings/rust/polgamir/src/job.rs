//! A job: which axes move, from where to where, within which limits and on which pole.

use std::num::NonZeroU32;

use crate::damping::Damping;
use crate::windows::{Window, Windows};
use crate::AXES;

/// A position with a velocity.
#[derive(Debug, Clone, Copy, PartialEq, Eq, Hash, Default)]
pub struct RestPoint {
    /// Position in units.
    pub position: i64,
    /// Velocity in units per tick.
    pub velocity: i64,
}

/// Where a moving target is at a tick. `d` ticks later it is at position +
/// velocity × d + acceleration × d² / 2.
#[derive(Debug, Clone, Copy, PartialEq, Eq, Hash, Default)]
pub struct State {
    /// Position in units at the tick.
    pub position: i64,
    /// Velocity in units per tick at the tick.
    pub velocity: i64,
    /// Acceleration in units per tick², the same at every tick.
    pub acceleration: i64,
    /// The tick at which position and velocity hold, counted from the start of the
    /// job; it may lie before the start.
    pub tick: i64,
}

/// What an axis is to land on.
#[derive(Debug, Clone, Copy, PartialEq, Eq, Hash)]
pub enum Target {
    /// A position to come to rest at, whenever that is. Its velocity is 0: the
    /// planner refuses any other with 17.
    Fixed(RestPoint),
    /// A target that moves by itself; the head joins it at arrival.
    Moving(State),
}

impl Target {
    /// Whether the target is fixed and has a velocity. The planner refuses it with 17;
    /// [`convert`](crate::convert()) takes words of such jobs from the time when it did not.
    pub const fn flies(&self) -> bool {
        matches!(self, Target::Fixed(RestPoint { velocity, .. }) if *velocity != 0)
    }

    /// A target that stands still at a position in units.
    pub const fn still(position: i64) -> Target {
        Target::Fixed(RestPoint { position, velocity: 0 })
    }
}

/// One axis of a job.
///
/// Every field has to be said: a limit or a half period that nobody entered would be a guess.
#[derive(Debug, Clone, Copy, PartialEq)]
pub struct Axis {
    /// Where the head is at tick 0, and how fast it moves then.
    pub start: RestPoint,
    /// The greatest speed in units per tick, 1 to 1,048,576.
    pub speed_limit: u32,
    /// The greatest acceleration in units per tick², 1 to 65,536.
    pub acceleration_limit: u32,
    /// Half the period of the pole's sway in ticks, 0 to 256; 0 plans without a blend.
    pub half_period: u32,
    /// How far a swing of the pole shrinks in half a period.
    pub damping: Damping,
    /// Of a pole that swings at two rates, as one with a joint does: half the period of its second
    /// sway in ticks, 1 to 256. The second sway is taken as undamped; an axis that has one cannot
    /// have an accelerating target. `None` for a pole that swings at one rate.
    pub second_half_period: Option<u32>,
    /// What the axis is to land on.
    pub target: Target,
}

/// When a job is to arrive.
#[derive(Debug, Clone, Copy, PartialEq, Eq, Hash, Default)]
pub enum Arrival {
    /// At the least tick that every axis can reach and that fits a window, where the job has
    /// windows.
    #[default]
    Earliest,
    /// At this tick and no other, 1 to 4,096.
    At(NonZeroU32),
}

impl Arrival {
    /// The number that job words have for this arrival: 0 for the earliest, else the tick.
    pub const fn number(self) -> u32 {
        match self {
            Arrival::Earliest => 0,
            Arrival::At(tick) => tick.get(),
        }
    }
}

/// As in job words, 0 is the earliest arrival and any other number is the tick.
impl From<u32> for Arrival {
    fn from(number: u32) -> Arrival {
        NonZeroU32::new(number).map_or(Arrival::Earliest, Arrival::At)
    }
}

/// A whole job: up to six axes that arrive together.
///
/// ```
/// use polgamir::{Axis, Damping, Job, RestPoint, Target};
///
/// let pan = Axis {
///     start: RestPoint { position: 0, velocity: 0 },
///     speed_limit: 10,
///     acceleration_limit: 1,
///     half_period: 1,
///     damping: Damping::NONE,
///     second_half_period: None,
///     target: Target::still(1),
/// };
/// let job = Job::earliest().with_axis(0, pan);
/// assert_eq!(job.mask(), 1);
/// ```
#[derive(Debug, Clone, Copy, PartialEq, Default)]
#[non_exhaustive]
pub struct Job {
    /// When to arrive.
    pub arrival: Arrival,
    /// The axes by their number, 0 to 5; an axis that does not take part is `None`.
    pub axes: [Option<Axis>; AXES],
    /// The windows that the arrival is to fit; `None` is a job without windows, which an empty list
    /// is not.
    pub windows: Option<Windows>,
}

impl Job {
    /// A job without axes that asks for the earliest arrival.
    pub const fn earliest() -> Job {
        Job { arrival: Arrival::Earliest, axes: [None; AXES], windows: None }
    }

    /// A job without axes that asks to arrive at a tick, 1 to 4,096; as in job words, 0
    /// asks for the earliest arrival.
    pub fn arriving_at(tick: u32) -> Job {
        Job { arrival: Arrival::from(tick), ..Job::earliest() }
    }

    /// This job with an axis entered, in place of any that had the number before.
    ///
    /// # Panics
    ///
    /// Where the number is above 5, as indexing an array does.
    #[must_use]
    pub fn with_axis(mut self, number: usize, axis: Axis) -> Job {
        self.axes[number] = Some(axis);
        self
    }

    /// This job with windows and a dwell in place of any that it had.
    #[must_use]
    pub fn with_windows(mut self, dwell: u32, windows: &[Window]) -> Job {
        self.windows = Some(Windows::new(dwell, windows));
        self
    }

    /// The axis mask: bit i is set where axis i takes part.
    pub fn mask(&self) -> u32 {
        self.entered().fold(0, |mask, (number, _)| mask | 1 << number)
    }

    /// The axes that take part, lowest number first, each with its number.
    pub fn entered(&self) -> impl Iterator<Item = (usize, &Axis)> {
        self.axes.iter().enumerate().filter_map(|(number, axis)| axis.as_ref().map(|axis| (number, axis)))
    }

    /// A number of cells that is enough for this job's table, whatever its arrival turns out to be.
    pub fn enough_cells(&self) -> usize {
        let latest = match self.arrival {
            Arrival::Earliest => crate::LATEST_ARRIVAL,
            Arrival::At(tick) => tick.get().min(crate::LATEST_ARRIVAL),
        };
        crate::cells_needed(self.mask().count_ones(), latest)
    }
}
