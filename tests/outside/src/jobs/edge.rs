//! Random jobs whose axes just make an asked arrival, or just miss it: targets at the last
//! positions within reach and at the first ones out of it, where ramps meet the limit, where they
//! meet each other first, and where a ramp is missing.

use super::dampings::damping;
use super::drawn::second;
use super::on_rail;
use super::rail::place;
use crate::random::Random;
use crate::reference::{Axis, Job, Planned, Target, UNSET};

/// A velocity at rest, at the limit, or between.
fn velocity(random: &mut Random, limit: i64) -> i64 {
    match random.below(4) {
        0 => 0,
        1 => limit,
        2 => -limit,
        _ => random.between(-limit, limit),
    }
}

/// Limits whose ramps take no tick, some ticks, or more than there are.
fn limits(random: &mut Random, ticks: i64) -> (i64, i64) {
    let acceleration = match random.below(3) {
        0 => 1,
        1 => random.between(1, 30),
        _ => random.between(1, 65_536),
    };
    let speed = match random.below(4) {
        0 => random.between(1, acceleration),
        1 => acceleration * random.between(1, ticks),
        2 => acceleration * ticks + random.between(0, 9),
        _ => acceleration * random.between(1, ticks) / 2 + random.between(0, 1),
    };
    (speed.clamp(1, 1 << 20), acceleration)
}

/// A position that the axis reaches, if there is one near the motion that goes from one velocity to
/// the other and back toward rest between them as far as it can.
fn within_reach(axis: &Axis, asked: i64) -> Option<i64> {
    let limit = i64::from(axis.acceleration_limit);
    let ticks = asked - axis.delay();
    let (first, last) = (axis.start_velocity, axis.target.velocity());
    let at = |k: i64| {
        let (rise, fall) = (limit * k, limit * (ticks - k));
        0.clamp((first - rise).max(last - fall), (first + rise).min(last + fall).max((first - rise).max(last - fall)))
    };
    let twice: i64 = (0..ticks).map(|k| at(k) + at(k + 1)).sum();
    let shift = axis.weight() * i64::from(axis.half_period) + 128 * axis.second_delay();
    let middle = axis.start_position + (128 * twice + shift * (first - last)) / 256 + axis.delay() * last;
    (middle - 2..=middle + 2).find(|&p| Planned::reaching(&at_position(axis, p), asked).is_some())
}

fn at_position(axis: &Axis, position: i64) -> Axis {
    let Target::Moving { velocity, acceleration, tick, .. } = axis.target else { unreachable!() };
    Axis { target: Target::Moving { position, velocity, acceleration, tick }, ..*axis }
}

/// The last position within reach on one side of one that is.
fn last_within_reach(axis: &Axis, asked: i64, from: i64, side: i64) -> i64 {
    let reaches = |step: i64| Planned::reaching(&at_position(axis, from + side * step), asked).is_some();
    let (mut within, mut beyond) = (0, 1 << 36);
    while beyond - within > 1 {
        let middle = (within + beyond) / 2;
        if reaches(middle) {
            within = middle;
        } else {
            beyond = middle;
        }
    }
    from + side * within
}

/// An axis at the edge of its reach, or one of any position where it has none.
fn edge_axis(random: &mut Random, asked: i64) -> Axis {
    let h = if random.once_in(2) { 0 } else { random.between(0, (asked - 1).min(256)) };
    let second = if asked - h > 1 { second(random, asked - h - 1) } else { None };
    let (speed, acceleration) = limits(random, asked - h - i64::from(second.unwrap_or(0)));
    let start_position = place(random);
    let velocities = (velocity(random, speed), velocity(random, speed));
    let target = Target::Moving { position: start_position, velocity: velocities.1, acceleration: 0, tick: asked };
    let axis = Axis {
        start_position,
        start_velocity: velocities.0,
        speed_limit: speed as u32,
        acceleration_limit: acceleration as u32,
        half_period: h as u32,
        damping: damping(random),
        second,
        target,
    };
    let Some(from) = within_reach(&axis.by_hand(), asked) else { return axis };
    let side = random.pick(&[-1, 1]);
    let last = last_within_reach(&axis.by_hand(), asked, from, side);
    let beyond = if random.once_in(3) { side } else { 0 };
    at_position(&axis, on_rail(last + beyond))
}

/// A job with an asked arrival at the edge of its axes' reach.
pub fn edge_job(random: &mut Random) -> Job {
    let asked = if random.once_in(8) { random.between(1, 600) } else { random.between(1, 14) };
    let mask = if random.once_in(4) { random.between(1, 63) as u32 } else { 1 << random.below(6) };
    let mut axes = [UNSET; 6];
    for (i, slot) in axes.iter_mut().enumerate() {
        if mask >> i & 1 == 1 {
            *slot = edge_axis(random, asked);
        }
    }
    Job { mask, asked: asked as u32, axes, windows: None }
}
