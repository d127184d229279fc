//! What a call takes and what it returns: answers, targets, axes and jobs.

use std::ops::RangeInclusive;

use super::{Damping, Windows};

/// What a call returns.
#[derive(Clone, Copy, Debug, PartialEq, Eq)]
pub struct Answer {
    pub number: u32,
    pub place: u64,
    pub mask: u32,
    pub arrival: u32,
}

/// A refusal's answer.
pub fn refusal(number: u32, place: u64, mask: u32, arrival: u32) -> Answer {
    Answer { number, place, mask, arrival }
}

#[derive(Clone, Copy, Debug, PartialEq, Eq)]
pub enum Target {
    Fixed { position: i64, velocity: i64 },
    Moving { position: i64, velocity: i64, acceleration: i64, tick: i64 },
}

#[derive(Clone, Copy, Debug, PartialEq, Eq)]
pub struct Axis {
    pub start_position: i64,
    pub start_velocity: i64,
    pub speed_limit: u32,
    pub acceleration_limit: u32,
    pub half_period: u32,
    pub damping: Damping,
    /// The second half period, where the pole swings at two rates (request 2.9).
    pub second: Option<u32>,
    pub target: Target,
}

/// An axis that no job looks at.
pub const UNSET: Axis = Axis {
    start_position: 0,
    start_velocity: 0,
    speed_limit: 0,
    acceleration_limit: 0,
    half_period: 0,
    damping: Damping::Weight(0),
    second: None,
    target: Target::Fixed { position: 0, velocity: 0 },
};

#[derive(Clone, Copy, Debug, PartialEq, Eq)]
pub struct Job {
    pub mask: u32,
    pub asked: u32,
    pub axes: [Axis; 6],
    pub windows: Option<Windows>,
}

/// In which order a call writes the rows of a table (request 2.13).
#[derive(Clone, Copy, Debug, PartialEq, Eq)]
pub enum Order {
    /// Row 0 first.
    Forwards,
    /// Row N first.
    Backwards,
}

impl Order {
    /// The place of a row among those of a table, and the row at a place.
    pub fn place(self, row: usize, arrival: usize) -> usize {
        match self {
            Order::Forwards => row,
            Order::Backwards => arrival - row,
        }
    }
}

pub const LATEST: i64 = 4096;

/// The positions of a long rail: -64 to 63 times 2^28, and what 28 bits add to it (request 2.8).
pub const RAIL: RangeInclusive<i64> = -64 << 28..=(63 << 28) + 0x0FFF_FFFF;

impl Axis {
    /// The second weight B.
    pub fn weight(&self) -> i64 {
        i64::from(self.damping.weight())
    }

    /// The second half period, 0 where there is none.
    pub fn second_delay(&self) -> i64 {
        i64::from(self.second.unwrap_or(0))
    }

    /// The ticks from landing to arrival: those of both blends.
    pub fn delay(&self) -> i64 {
        i64::from(self.half_period) + self.second_delay()
    }

    /// The axis with its weight entered by hand.
    pub fn by_hand(&self) -> Axis {
        Axis { damping: Damping::Weight(self.damping.weight()), ..*self }
    }
}

impl Target {
    pub fn position(&self) -> i64 {
        match *self {
            Target::Fixed { position, .. } | Target::Moving { position, .. } => position,
        }
    }

    pub fn velocity(&self) -> i64 {
        match *self {
            Target::Fixed { velocity, .. } | Target::Moving { velocity, .. } => velocity,
        }
    }

    pub fn acceleration(&self) -> i64 {
        match *self {
            Target::Fixed { .. } => 0,
            Target::Moving { acceleration, .. } => acceleration,
        }
    }

    /// Whether the target is fixed and not at rest.
    pub fn flies(&self) -> bool {
        matches!(*self, Target::Fixed { velocity, .. } if velocity != 0)
    }

    /// Twice the position, and the velocity, at a tick of a motion that arrives at `arrival`.
    pub fn at(&self, tick: i64, arrival: i64) -> (i64, i64) {
        let (p, v, a, t) = match *self {
            Target::Fixed { position, velocity } => (position, velocity, 0, arrival),
            Target::Moving { position, velocity, acceleration, tick } => (position, velocity, acceleration, tick),
        };
        let d = tick - t;
        (2 * p + 2 * v * d + a * d * d, v + a * d)
    }
}

impl Job {
    /// The axes of the mask, with their numbers.
    pub fn set(&self) -> impl Iterator<Item = (usize, &Axis)> {
        self.axes.iter().enumerate().filter(|&(i, _)| self.mask >> i & 1 == 1)
    }

    /// The job with the weights of its axes entered by hand.
    pub fn by_hand(&self) -> Job {
        Job { axes: self.axes.map(|axis| axis.by_hand()), ..*self }
    }

    pub fn count(&self) -> usize {
        self.set().count()
    }
}
