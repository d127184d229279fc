//! The library's call in plain Rust: a job comes by value in the header's layout, as a program in C
//! hands it over, is turned into typed values and planned.

use outside::reference::{Answer, Axis, Damping, Job, Single, Target, Window, Windows};
use polgamir_sys::{polgamir_axis, polgamir_job, polgamir_window};

use crate::plain::{self, Engine};

fn single(x: f32) -> Single {
    Single(x.to_bits())
}

fn axis(c: &polgamir_axis) -> Axis {
    let damping = match c.damping_kind {
        0 => Damping::Weight(c.second_weight),
        1 => Damping::Ratio(single(c.swing_ratio)),
        _ => Damping::Peaks(single(c.first_peak), single(c.second_peak)),
    };
    let target = match c.target_kind {
        0 => Target::Fixed { position: c.target_position, velocity: c.target_velocity },
        _ => Target::Moving {
            position: c.target_position,
            velocity: c.target_velocity,
            acceleration: c.target_acceleration,
            tick: c.target_tick,
        },
    };
    Axis {
        start_position: c.start_position,
        start_velocity: c.start_velocity,
        speed_limit: c.speed_limit,
        acceleration_limit: c.acceleration_limit,
        half_period: c.half_period,
        damping,
        second: (c.second_sway_given != 0).then_some(c.second_half_period),
        target,
    }
}

fn typed(c: &polgamir_job) -> Job {
    let window = |w: polgamir_window| Window { opening: w.opening, closing: w.closing };
    let windows = (c.windows.given != 0).then(|| Windows {
        dwell: c.windows.dwell,
        count: c.windows.count as u32,
        list: c.windows.list.map(window),
    });
    Job { mask: c.mask, asked: c.asked, axes: std::array::from_fn(|i| axis(&c.axes[i])), windows }
}

/// Plans a job that no refusal before 8 comes to.
#[inline(never)]
pub fn plan(job: polgamir_job, table: &mut [i64]) -> Answer {
    plain::plan(&typed(&job), Engine::Areas, table)
}
