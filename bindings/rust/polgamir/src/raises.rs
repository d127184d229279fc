//! The least raise of a limit for which an axis makes an arrival that refusal 8 turned down.

use std::fmt;

use crate::job::{Axis, Job};
use crate::library;
use crate::refusal::{Answer, AxisMask, Refusal};
use crate::words::WordKind;
use crate::AXES;

/// One of the two limits of an axis.
#[derive(Debug, Clone, Copy, PartialEq, Eq, Hash)]
pub enum Limit {
    /// [`Axis::acceleration_limit`].
    Acceleration,
    /// [`Axis::speed_limit`].
    Speed,
}

/// The limit's name, as in a set-up sheet.
impl fmt::Display for Limit {
    fn fmt(&self, f: &mut fmt::Formatter<'_>) -> fmt::Result {
        f.write_str(match self {
            Limit::Acceleration => WordKind::AccelerationLimit.name(),
            Limit::Speed => WordKind::SpeedLimit.name(),
        })
    }
}

/// A raise of one limit, the other staying as it is.
#[derive(Debug, Clone, Copy, PartialEq, Eq, Hash)]
pub struct Raise {
    /// The limit to raise.
    pub limit: Limit,
    /// What is added to it, at least 1.
    pub by: u32,
}

impl Raise {
    /// What the limit of an axis becomes.
    pub const fn raised(&self, axis: &Axis) -> u32 {
        match self.limit {
            Limit::Acceleration => axis.acceleration_limit.saturating_add(self.by),
            Limit::Speed => axis.speed_limit.saturating_add(self.by),
        }
    }

    /// The axis with its limit raised.
    #[must_use]
    pub const fn applied(&self, mut axis: Axis) -> Axis {
        match self.limit {
            Limit::Acceleration => axis.acceleration_limit = self.raised(&axis),
            Limit::Speed => axis.speed_limit = self.raised(&axis),
        }
        axis
    }
}

/// The raises of one axis.
///
/// Each is the least raise of its limit alone, within the limit's range, for which
/// the axis can arrive: it is enough, and one less is not. Where a limit has none,
/// no value of its range is enough.
#[derive(Debug, Clone, Copy, PartialEq, Eq, Hash, Default)]
pub struct AxisRaises {
    /// The smaller raise, that of the acceleration limit if both are equal; `None` where no
    /// raise of one limit alone would do.
    pub first: Option<Raise>,
    /// The other limit's raise, where it has one.
    pub second: Option<Raise>,
}

impl AxisRaises {
    /// The raises that exist, the smaller first.
    pub fn iter(&self) -> impl Iterator<Item = Raise> {
        [self.first, self.second].into_iter().flatten()
    }
}

/// What [`raises()`] gives: the answer to a job and, where it is refusal 8, the
/// raises of each axis that it names.
#[derive(Debug, Clone, Copy, PartialEq, Eq, Hash)]
pub struct Raises {
    answer: Answer,
    axes: [AxisRaises; AXES],
}

impl Raises {
    pub(crate) const fn new(answer: Answer, axes: [AxisRaises; AXES]) -> Raises {
        Raises { answer, axes }
    }

    /// The arrival of the job's table.
    ///
    /// # Errors
    ///
    /// The refusal that the job gets with any table: 10 never comes.
    pub fn arrival(&self) -> Result<u32, Refusal> {
        match self.answer.number {
            0 => Ok(self.answer.arrival),
            _ => Err(Refusal::from_answer(self.answer)),
        }
    }

    /// The axes that refusal 8 names, lowest first, each with its raises; none where the answer is
    /// another.
    pub fn axes(&self) -> impl Iterator<Item = (usize, AxisRaises)> + '_ {
        let named = match self.answer.number {
            8 => AxisMask(self.answer.mask),
            _ => AxisMask(0),
        };
        named.axes().map(|number| (number, self.axes[number]))
    }

    /// The raises of an axis; none of an axis that refusal 8 does not name.
    pub fn of_axis(&self, number: usize) -> AxisRaises {
        self.axes.get(number).copied().unwrap_or_default()
    }
}

/// Which raise of a limit would make an arrival that refusal 8 turned down. Raises heed no window.
///
/// ```
/// use polgamir::{raises, Axis, Damping, Job, Limit, Raise, RestPoint, Target};
///
/// let pan = Axis {
///     start: RestPoint { position: 0, velocity: 0 },
///     speed_limit: 2,
///     acceleration_limit: 1,
///     half_period: 0,
///     damping: Damping::NONE,
///     second_half_period: None,
///     target: Target::still(9),
/// };
///
/// // Tick 6 is too soon, by one more of either limit it is not.
/// let raises = raises(&Job::arriving_at(6).with_axis(0, pan));
/// let by_one = |limit| Raise { limit, by: 1 };
/// for (axis, raises) in raises.axes() {
///     assert_eq!(axis, 0);
///     assert_eq!(raises.iter().collect::<Vec<_>>(), [by_one(Limit::Acceleration), by_one(Limit::Speed)]);
/// }
/// let stronger = by_one(Limit::Acceleration).applied(pan);
/// assert_eq!(Job::arriving_at(6).with_axis(0, stronger).arrival_found(), Ok(6));
/// ```
pub fn raises(job: &Job) -> Raises {
    library::raises_job(job)
}

/// The same of the job that words hold.
pub fn raises_words(words: &[u32]) -> Raises {
    library::raises_words(words)
}

impl Job {
    /// Which raise of a limit would make an arrival that refusal 8 turned down: [`raises()`] of
    /// this job.
    pub fn raises(&self) -> Raises {
        raises(self)
    }
}
