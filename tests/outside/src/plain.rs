//! The axis and the jobs that the field cases of docs/METHOD.md are told with.

use crate::reference::{Axis, Damping, Job, Target, UNSET};

/// L = 10, M = 1, h = 0, B = 128, start 0 at rest.
pub const PLAIN: Axis = Axis {
    start_position: 0,
    start_velocity: 0,
    speed_limit: 10,
    acceleration_limit: 1,
    half_period: 0,
    damping: Damping::Weight(128),
    second: None,
    target: Target::Fixed { position: 0, velocity: 0 },
};

/// To rest at a position.
pub fn to(position: i64) -> Axis {
    Axis { target: Target::Fixed { position, velocity: 0 }, ..PLAIN }
}

/// After a moving target.
pub fn after(position: i64, velocity: i64, acceleration: i64, tick: i64) -> Axis {
    Axis { target: Target::Moving { position, velocity, acceleration, tick }, ..PLAIN }
}

/// The job of one axis that seeks its least arrival.
pub fn one(axis: Axis) -> Job {
    job(&[axis])
}

/// The job of the axes from 0 on that seeks its least arrival.
pub fn job(axes: &[Axis]) -> Job {
    let mut all = [UNSET; 6];
    all[..axes.len()].copy_from_slice(axes);
    Job { mask: (1 << axes.len()) - 1, asked: 0, axes: all, windows: None }
}

/// The job with an asked arrival.
pub fn asked(job: Job, asked: u32) -> Job {
    Job { asked, ..job }
}

/// Case F's axis with a moving target that is at the position at the tick.
pub fn passing(position: i64, tick: i64) -> Axis {
    let target = Target::Moving { position, velocity: 10, acceleration: 0, tick };
    Axis { target, ..flying(position) }
}

/// Case F's axis, whose fixed target flies.
pub fn flying(position: i64) -> Axis {
    Axis { speed_limit: 20, start_velocity: 10, target: Target::Fixed { position, velocity: 10 }, ..PLAIN }
}
