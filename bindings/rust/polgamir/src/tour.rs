//! A tour: stops that the head goes to one after the other, resting at each.

use std::fmt;

use crate::damping::Damping;
use crate::job::{Axis, Job, RestPoint, Target};
use crate::library;
use crate::refusal::{AxisMask, Refusal};
use crate::AXES;

/// A tour has at most this many stops.
pub const MOST_STOPS: usize = 64;

/// The longest dwell, at a stop or in a window, in ticks.
pub const LONGEST_DWELL: u32 = 4096;

/// A stop of a tour. It is laid out as the library's, so that a row of stops is lent as it stands.
#[repr(C)]
#[derive(Debug, Clone, Copy, PartialEq, Eq, Hash, Default)]
pub struct Stop {
    /// The resting position of each axis in units; that of an axis which takes no part is not
    /// looked at.
    pub positions: [i64; AXES],
    /// How long the head stays, 0 to 4,096 ticks.
    pub dwell: u32,
}

/// One axis of a tour: where it starts, at rest, and what is common to all legs.
#[derive(Debug, Clone, Copy, PartialEq)]
pub struct TourAxis {
    /// Position in units before the first leg.
    pub start: i64,
    /// The greatest speed in units per tick, 1 to 1,048,576.
    pub speed_limit: u32,
    /// The greatest acceleration in units per tick², 1 to 65,536.
    pub acceleration_limit: u32,
    /// Half the period of the pole's sway in ticks, 0 to 256; 0 plans without a blend.
    pub half_period: u32,
    /// How far a swing of the pole shrinks in half a period.
    pub damping: Damping,
    /// Half the period of the pole's second sway in ticks, 1 to 256; `None` for
    /// a pole that swings at one rate.
    pub second_half_period: Option<u32>,
}

impl TourAxis {
    /// This axis in a leg, at rest at both ends.
    pub(crate) fn leg(&self, from: i64, to: i64) -> Axis {
        Axis {
            start: RestPoint { position: from, velocity: 0 },
            speed_limit: self.speed_limit,
            acceleration_limit: self.acceleration_limit,
            half_period: self.half_period,
            damping: self.damping,
            second_half_period: self.second_half_period,
            target: Target::still(to),
        }
    }
}

/// A tour: the axes that take part. Its stops are lent to each call.
///
/// Each leg starts at rest where the last one ended, after its dwell, and arrives at the least
/// tick that every axis can reach.
///
/// ```
/// use polgamir::{Damping, Stop, Tour, TourAxis, TourRefusal};
///
/// let pan = TourAxis {
///     start: 0,
///     speed_limit: 10,
///     acceleration_limit: 1,
///     half_period: 0,
///     damping: Damping::NONE,
///     second_half_period: None,
/// };
/// let tour = Tour::new().with_axis(0, pan);
/// let stops = [(4, 3), (0, 5)].map(|(pan, dwell)| Stop { positions: [pan, 0, 0, 0, 0, 0], dwell });
///
/// let mut arrivals = [0; 2];
/// let total = tour.plan(&stops, &mut arrivals)?;
/// assert_eq!((arrivals, total), ([4, 11], 16));
///
/// // The table of a leg is that of its job.
/// let table = tour.leg(&stops, 1).map(|job| job.plan());
/// # assert!(table.is_some_and(|plan| plan.is_ok_and(|plan| plan.arrival() == 4)));
/// # Ok::<(), TourRefusal>(())
/// ```
#[derive(Debug, Clone, Copy, PartialEq, Default)]
#[non_exhaustive]
pub struct Tour {
    /// The axes by their number, 0 to 5; an axis that does not take part is `None`.
    pub axes: [Option<TourAxis>; AXES],
}

impl Tour {
    /// A tour without axes.
    pub const fn new() -> Tour {
        Tour { axes: [None; AXES] }
    }

    /// This tour with an axis entered, in place of any that had the number before.
    ///
    /// # Panics
    ///
    /// Where the number is above 5, as indexing an array does.
    #[must_use]
    pub fn with_axis(mut self, number: usize, axis: TourAxis) -> Tour {
        self.axes[number] = Some(axis);
        self
    }

    /// The axis mask: bit i is set where axis i takes part.
    pub fn mask(&self) -> u32 {
        self.entered().fold(0, |mask, (number, _)| mask | 1 << number)
    }

    /// The axes that take part, lowest number first, each with its number.
    pub fn entered(&self) -> impl Iterator<Item = (usize, &TourAxis)> {
        self.axes.iter().enumerate().filter_map(|(number, axis)| axis.as_ref().map(|axis| (number, axis)))
    }

    /// Plans the tour over the stops, writes the arrival at each of them, counted from the
    /// tour's start, to the lent list, and gives the total: the last arrival with its dwell,
    /// and 0 where there are no stops.
    ///
    /// Entries of the list after the last stop's stay as they were; a refused tour writes
    /// nothing. Nothing is allocated.
    ///
    /// # Errors
    ///
    /// The refusal of the stops, else that of the first leg which has one, else that of the list.
    pub fn plan(&self, stops: &[Stop], arrivals: &mut [u32]) -> Result<u32, TourRefusal> {
        let (answer, total) = library::plan_tour(self, stops, arrivals);
        let place = answer.place as usize;
        match answer.number {
            0 => Ok(total),
            10 => Err(TourRefusal::ListTooShort { stops: place }),
            11 => Err(TourRefusal::Stops { stop: place }),
            // The library names the stop alone; which axis is at fault, where one
            // is, the leg's own job is told.
            4..=6 | 12 | 15 => Err(TourRefusal::Leg { stop: place, refusal: self.leg_refusal(stops, place) }),
            _ => Err(TourRefusal::Leg { stop: place, refusal: Refusal::from_answer(answer) }),
        }
    }

    /// The refusal that the job of a refused leg gets.
    fn leg_refusal(&self, stops: &[Stop], index: usize) -> Refusal {
        let job = self.leg(stops, index).expect("a refused leg is one of the tour's");
        job.arrival_found().expect_err("the job of a refused leg is refused")
    }

    /// Plans the tour over the stops into a list of its own. [`Tour::plan`] is the call for lent
    /// memory.
    ///
    /// # Errors
    ///
    /// As [`Tour::plan`], except 10: the list is as long as it needs to be.
    pub fn schedule(&self, stops: &[Stop]) -> Result<Schedule, TourRefusal> {
        let mut arrivals = vec![0; stops.len().min(MOST_STOPS)];
        let total = self.plan(stops, &mut arrivals)?;
        Ok(Schedule { arrivals, total })
    }

    /// The job of the leg that leads to a stop, or `None` where there is no such stop. Where the
    /// tour is accepted, so is the job, and its own arrival is the stop's less the tick at which
    /// the head leaves the stop before.
    pub fn leg(&self, stops: &[Stop], index: usize) -> Option<Job> {
        let stop = stops.get(index)?;
        let before = index.checked_sub(1).map(|before| &stops[before]);
        let mut job = Job::earliest();
        for (number, axis) in self.entered() {
            let from = before.map_or(axis.start, |before| before.positions[number]);
            job.axes[number] = Some(axis.leg(from, stop.positions[number]));
        }
        Some(job)
    }
}

/// When an accepted tour is where: what [`Tour::schedule`] gives.
#[derive(Debug, Clone, PartialEq, Eq, Default)]
pub struct Schedule {
    /// The arrival at each stop, in ticks from the tour's start.
    pub arrivals: Vec<u32>,
    /// The last arrival with its dwell; 0 where there are no stops.
    pub total: u32,
}

/// Why a tour has no arrivals. A refused tour writes nothing.
#[derive(Debug, Clone, Copy, PartialEq, Eq, Hash)]
#[non_exhaustive]
pub enum TourRefusal {
    /// 11: a tour has more than 64 stops, or then a dwell above 4,096.
    Stops {
        /// 64 where there are more, else the first stop with such a dwell.
        stop: usize,
    },
    /// The first leg that is refused, with the refusal of its job.
    Leg {
        /// The stop that the leg leads to.
        stop: usize,
        /// What the leg's job is refused with: 1, 4, 12, 5, 15, 6 or 9.
        refusal: Refusal,
    },
    /// 10: the lent list is shorter than the stops.
    ListTooShort {
        /// The number of stops.
        stops: usize,
    },
}

impl TourRefusal {
    /// The refusal's number.
    pub const fn number(&self) -> u32 {
        match self {
            TourRefusal::Stops { .. } => 11,
            TourRefusal::Leg { refusal, .. } => refusal.number(),
            TourRefusal::ListTooShort { .. } => 10,
        }
    }

    /// The place: the stop, or for 10 the number of stops.
    pub const fn place(&self) -> usize {
        match *self {
            TourRefusal::Stops { stop } | TourRefusal::Leg { stop, .. } => stop,
            TourRefusal::ListTooShort { stops } => stops,
        }
    }

    /// The axes that a leg's refusal 9 names; empty for the others.
    pub const fn mask(&self) -> AxisMask {
        match self {
            TourRefusal::Leg { refusal, .. } => refusal.mask(),
            _ => AxisMask(0),
        }
    }

    /// The refusal in the form of the table program's line, as
    /// `refused 9 place 1 axes 1 arrival 0`.
    pub fn printed_line(&self) -> String {
        format!("refused {} place {} axes {} arrival 0", self.number(), self.place(), self.mask().0)
    }
}

impl fmt::Display for TourRefusal {
    fn fmt(&self, f: &mut fmt::Formatter<'_>) -> fmt::Result {
        match *self {
            TourRefusal::Stops { stop: MOST_STOPS } => {
                write!(f, "refused with 11: there are more than {MOST_STOPS} stops")
            }
            TourRefusal::Stops { stop } => {
                write!(f, "refused with 11: the `dwell` of stop {stop} is above {LONGEST_DWELL}")
            }
            TourRefusal::Leg { stop, refusal } => write!(f, "the leg to stop {stop} is {refusal}"),
            TourRefusal::ListTooShort { stops } => {
                write!(f, "refused with 10: there are {stops} stops, and the lent list of arrivals has fewer entries")
            }
        }
    }
}

impl std::error::Error for TourRefusal {}
