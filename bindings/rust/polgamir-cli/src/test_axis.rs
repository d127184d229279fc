//! The axis that the unit tests begin with.

use polgamir::{Axis, Damping, RestPoint, Target};

/// An axis without a blend, with limits and a velocity at its start 0, to a still target.
pub fn unblended(speed_limit: u32, acceleration_limit: u32, velocity: i64, target: i64) -> Axis {
    Axis {
        start: RestPoint { position: 0, velocity },
        speed_limit,
        acceleration_limit,
        half_period: 0,
        damping: Damping::NONE,
        second_half_period: None,
        target: Target::still(target),
    }
}
