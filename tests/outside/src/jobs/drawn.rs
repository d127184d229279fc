//! Jobs that pass the checks of their values.

use super::dampings::damping;
use super::rail::{anywhere, place};
use super::{on_rail, Reach};
use crate::random::Random;
use crate::reference::{Axis, Job, Target, LATEST, UNSET};

/// A number whose count of bits is random, at most `greatest`, at least 1.
fn some_size(random: &mut Random, greatest: i64) -> i64 {
    let bits = random.between(0, 63 - i64::from(greatest.leading_zeros()));
    random.between(1, (2 << bits) - 1).min(greatest)
}

fn half_period(random: &mut Random, most: i64) -> i64 {
    match random.below(4) {
        0 => 0,
        1 => random.between(0, most.min(4)),
        _ => random.between(0, most),
    }
}

/// A second half period, once in four times.
pub fn second(random: &mut Random, most: i64) -> Option<u32> {
    match random.below(8) {
        0 => Some(random.between(1, most.clamp(1, 256)) as u32),
        1 => Some(random.between(1, most.clamp(1, 4)) as u32),
        _ => None,
    }
}

/// An axis that passes the checks of its values and that may well arrive after about `ticks` ticks.
fn fitting_axis(random: &mut Random, speed: i64, acceleration: i64, ticks: i64) -> Axis {
    let h = half_period(random, 256.min(ticks));
    let damping = damping(random);
    let second = second(random, ticks - h);
    let delay = h + i64::from(second.unwrap_or(0));
    let start = place(random);
    let start_velocity = if random.once_in(2) { 0 } else { random.between(-speed, speed) };
    let velocity = if random.once_in(2) { 0 } else { random.between(-speed, speed) };
    // What a motion from rest to rest can cover in the ticks, and a little more.
    let moved = (ticks - delay).max(1);
    let most = (speed * moved).min(acceleration * (moved * moved / 4)).max(1);
    let drift = if random.once_in(2) { (start_velocity + velocity) * moved / 2 } else { 0 };
    let distance = random.between(-most - most / 16, most + most / 16) + drift;
    let position = on_rail(start + distance);
    let target = if velocity != 0 || random.once_in(3) {
        // A moving target: where it meets the head about `ticks`, reckoned back to its own tick.
        let a = if second.is_some() || random.once_in(2) {
            0
        } else {
            let most = (speed / ticks.max(1)).clamp(1, acceleration);
            random.between(-most, most)
        };
        let tick = random.between((ticks - 40).max(-LATEST), (ticks + 20).min(LATEST));
        Target::Moving { position, velocity, acceleration: a, tick }
    } else {
        Target::Fixed { position, velocity: 0 }
    };
    Axis {
        start_position: start,
        start_velocity,
        speed_limit: speed as u32,
        acceleration_limit: acceleration as u32,
        half_period: h as u32,
        damping,
        second,
        target,
    }
}

fn far_axis(random: &mut Random) -> Axis {
    let speed = some_size(random, 1 << 20);
    let acceleration = some_size(random, 1 << 16);
    let axis = fitting_axis(random, speed, acceleration, 100);
    let (position, start_position) = (anywhere(random), anywhere(random));
    Axis { start_position, target: Target::Fixed { position, velocity: 0 }, ..axis }
}

/// An axis of small limits that may well arrive after about `ticks` ticks.
pub fn near_axis(random: &mut Random, ticks: i64) -> Axis {
    let (speed, acceleration) = (random.between(1, 20), random.between(1, 4));
    fitting_axis(random, speed, acceleration, ticks)
}

fn axis(random: &mut Random, reach: Reach, ticks: i64) -> Axis {
    match reach {
        Reach::Near => near_axis(random, ticks),
        Reach::Quick | Reach::Asked | Reach::Far => {
            let (speed, acceleration) = (some_size(random, 1 << 20), some_size(random, 1 << 16));
            fitting_axis(random, speed, acceleration, ticks)
        }
        Reach::Anywhere => far_axis(random),
    }
}

/// A job that passes every check of its values.
pub fn job(random: &mut Random, reach: Reach) -> Job {
    let mask = match random.below(4) {
        0 => random.between(1, 63) as u32,
        1 => 1 << random.below(6) | 1 << random.below(6),
        _ => 1 << random.below(6),
    };
    let ticks = match reach {
        Reach::Near => random.between(1, 16),
        Reach::Quick => random.between(1, 40),
        Reach::Asked => random.between(1, LATEST),
        Reach::Far => random.between(200, 3_000),
        Reach::Anywhere => 100,
    };
    let asked = match reach {
        Reach::Near | Reach::Quick if random.once_in(3) => (ticks + random.between(-1, 3)).max(1),
        Reach::Asked => ticks,
        _ => 0,
    };
    let mut axes = [UNSET; 6];
    for (i, slot) in axes.iter_mut().enumerate() {
        if mask >> i & 1 == 1 {
            *slot = axis(random, reach, ticks);
        }
    }
    Job { mask, asked: asked as u32, axes, windows: None }
}

/// A job of the old rules: fixed targets may fly. Mostly it asks for its least
/// arrival or for one soon after.
pub fn old_job(random: &mut Random, reach: Reach) -> Job {
    let mut old = job(random, reach);
    for axis in &mut old.axes {
        if let Target::Moving { position, velocity, acceleration: 0, .. } = axis.target {
            if !random.once_in(4) {
                axis.target = Target::Fixed { position, velocity };
            }
        }
    }
    if !random.once_in(4) {
        let least = (1..=60).find(|&tick| old.all_arrive(tick));
        old.asked = least.map_or(old.asked, |tick| (tick + random.pick(&[0, 0, 0, 1, 9])) as u32);
    }
    old
}

/// An axis from rest to rest that arrives about the tick, not before it, or not long after.
fn late_axis(random: &mut Random, tick: i64) -> Axis {
    let (speed, acceleration) = (some_size(random, 1 << 14), some_size(random, 1 << 10));
    let axis = fitting_axis(random, speed, acceleration, 256);
    let moved = (tick - axis.delay()).max(2);
    let ramp = (speed / acceleration).min(moved / 2);
    let most = (speed * (moved - ramp)).min(acceleration * (moved * moved / 4));
    let distance = most + random.between(-2, 2) * speed.min(acceleration) / 2;
    let distance = if random.once_in(2) { distance } else { -distance };
    let start_position = place(random);
    let position = on_rail(start_position + distance);
    let target = match random.below(3) {
        0 => Target::Moving { position, velocity: 0, acceleration: 0, tick: random.between(-LATEST, LATEST) },
        _ => Target::Fixed { position, velocity: 0 },
    };
    Axis { start_position, start_velocity: 0, target, ..axis }
}

/// An axis after a target that accelerates away: within its speed limit only for
/// some ticks about the target's own.
fn fleeing_axis(random: &mut Random, tick: i64) -> Axis {
    let acceleration = random.between(1, 9) * if random.once_in(2) { 1 } else { -1 };
    let position = place(random);
    let target = Target::Moving { position, velocity: 0, acceleration, tick: tick.min(LATEST) };
    Axis {
        start_position: on_rail(position + random.between(-9, 9)),
        start_velocity: 0,
        speed_limit: random.between(10, 1_000) as u32,
        acceleration_limit: random.between(9, 50) as u32,
        half_period: random.pick(&[0, 1, 40]),
        damping: damping(random),
        second: None,
        target,
    }
}

/// An axis on a pole of any blend, after a target whose acceleration is as
/// large as the speed limit lets it be.
fn chasing_axis(random: &mut Random, asked: i64) -> Axis {
    let (h, behind) = (random.between(1, 256), random.between(-20, 20));
    let speed = if random.once_in(2) { 1 << 20 } else { some_size(random, 1 << 20) };
    let most = (speed / (h + behind.abs() + 1)).clamp(1, 1 << 16);
    let acceleration = random.between(-most, most);
    let position = place(random);
    let target = Target::Moving { position, velocity: 0, acceleration, tick: asked + behind };
    Axis {
        start_position: on_rail(position + random.between(-99, 99)),
        start_velocity: 0,
        speed_limit: speed as u32,
        acceleration_limit: random.between(most, 1 << 16) as u32,
        half_period: h as u32,
        damping: damping(random),
        second: None,
        target,
    }
}

/// A job with an asked arrival after accelerating targets.
pub fn chasing_job(random: &mut Random) -> Job {
    let mask = if random.once_in(4) { random.between(1, 63) as u32 } else { 1 << random.below(6) };
    let asked = random.between(257, 900);
    let mut axes = [UNSET; 6];
    for (i, slot) in axes.iter_mut().enumerate() {
        if mask >> i & 1 == 1 {
            *slot = chasing_axis(random, asked);
        }
    }
    Job { mask, asked: asked as u32, axes, windows: None }
}

/// A job whose search is long: it ends late, or nowhere.
pub fn late_job(random: &mut Random) -> Job {
    let tick = if random.once_in(3) { random.between(LATEST - 40, LATEST + 400) } else { random.between(500, LATEST) };
    let mask =
        if random.once_in(4) { random.between(1, 63) as u32 } else { 1 << random.below(6) | 1 << random.below(6) };
    let mut axes = [UNSET; 6];
    for (i, slot) in axes.iter_mut().enumerate() {
        if mask >> i & 1 == 1 {
            *slot = match random.below(6) {
                0 => fleeing_axis(random, tick),
                _ => late_axis(random, tick),
            };
        }
    }
    Job { mask, asked: 0, axes, windows: None }
}
