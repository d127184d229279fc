//! Jobs of typed values at the ends of their types and ranges.

use crate::random::Random;
use crate::reference::{Axis, Damping, Job, Single, Target, RAIL};

/// Ends of types and of ranges, and their neighbours.
pub const SIGNED_ENDS: [i64; 28] = [
    i64::MIN,
    i64::MIN + 1,
    -(1 << 62),
    -(1 << 40),
    *RAIL.start() - 1,
    *RAIL.start(),
    i32::MIN as i64 - 1,
    i32::MIN as i64,
    -(1 << 27) - 1,
    -(1 << 27),
    -1_048_577,
    -65_537,
    -4_097,
    -4_096,
    -1,
    0,
    1,
    4_096,
    4_097,
    65_537,
    1_048_577,
    (1 << 27) - 1,
    1 << 27,
    i32::MAX as i64 + 1,
    *RAIL.end(),
    *RAIL.end() + 1,
    i64::MAX - 1,
    i64::MAX,
];

pub const UNSIGNED_ENDS: [u32; 20] = [
    0,
    1,
    2,
    127,
    128,
    129,
    255,
    256,
    257,
    4_096,
    4_097,
    65_535,
    65_536,
    65_537,
    1_048_576,
    1_048_577,
    1 << 31,
    (1 << 31) - 1,
    u32::MAX - 1,
    u32::MAX,
];

/// The axis with signed value `j`, in the order of C's struct, replaced. A value
/// that a fixed target lacks is left.
pub fn with_signed(axis: Axis, j: usize, value: i64) -> Axis {
    let target = match (axis.target, j) {
        (Target::Fixed { velocity, .. }, 2) => Target::Fixed { position: value, velocity },
        (Target::Fixed { position, .. }, 3) => Target::Fixed { position, velocity: value },
        (Target::Moving { velocity, acceleration, tick, .. }, 2) => {
            Target::Moving { position: value, velocity, acceleration, tick }
        }
        (Target::Moving { position, acceleration, tick, .. }, 3) => {
            Target::Moving { position, velocity: value, acceleration, tick }
        }
        (Target::Moving { position, velocity, tick, .. }, 4) => {
            Target::Moving { position, velocity, acceleration: value, tick }
        }
        (Target::Moving { position, velocity, acceleration, .. }, 5) => {
            Target::Moving { position, velocity, acceleration, tick: value }
        }
        (target, _) => target,
    };
    match j {
        0 => Axis { start_position: value, ..axis },
        1 => Axis { start_velocity: value, ..axis },
        _ => Axis { target, ..axis },
    }
}

/// The axis with unsigned value `j`, in the order of C's struct, replaced; the target's kind stays.
pub fn with_unsigned(axis: Axis, j: usize, value: u32) -> Axis {
    match j {
        0 => Axis { speed_limit: value, ..axis },
        1 => Axis { acceleration_limit: value, ..axis },
        2 => Axis { half_period: value, ..axis },
        3 => Axis { damping: Damping::Weight(value), ..axis },
        4 => Axis { second: Some(value), ..axis },
        _ => axis,
    }
}

/// Weight 126, 127 or 128, by hand or by a ratio.
fn nearly_undamped(random: &mut Random) -> Damping {
    match random.below(2) {
        0 => Damping::Weight(random.between(126, 128) as u32),
        _ => Damping::Ratio(Single(random.pick(&[0.984_f32, 0.985, 0.992, 0.993, 1.0]).to_bits())),
    }
}

/// Floats of every kind: zeros, subnormals, numbers about 1, the largest, infinities, and no
/// numbers.
pub const SINGLE_ENDS: [Single; 20] = [
    Single(0),
    Single(1),
    Single(0x007F_FFFF),
    Single(0x0080_0000),
    Single(0x3C01_0204),
    Single(0x3F00_0000),
    Single(0x3F7F_FFFF),
    Single(0x3F80_0000),
    Single(0x3F80_0001),
    Single(0x4000_0000),
    Single(0x7F7F_FFFF),
    Single(0x7F80_0000),
    Single(0x7F80_0001),
    Single(0x7FC0_0000),
    Single(0x8000_0000),
    Single(0x8000_0001),
    Single(0xBF80_0000),
    Single(0xFF7F_FFFF),
    Single(0xFF80_0000),
    Single(0xFFC0_0000),
];

/// A damping that was measured, of floats at their ends or of any bits.
pub fn strange_damping(random: &mut Random) -> Damping {
    let mut single = || if random.once_in(3) { Single(random.word() as u32) } else { random.pick(&SINGLE_ENDS) };
    let (first, second) = (single(), single());
    if random.once_in(2) {
        Damping::Ratio(first)
    } else {
        Damping::Peaks(first, second)
    }
}

/// The axis after a target that accelerates, with a blend that may be damped.
fn accelerating(random: &mut Random, axis: Axis) -> Axis {
    let (position, velocity) = (axis.target.position(), axis.target.velocity());
    Axis {
        half_period: random.between(0, 2) as u32,
        damping: nearly_undamped(random),
        target: Target::Moving { position, velocity, acceleration: random.between(-1, 1), tick: random.between(-9, 9) },
        ..axis
    }
}

/// A typed job with one value or several at an end of its type or its range, on axes of the mask
/// and off it.
pub fn damaged_job(random: &mut Random, job: &Job) -> Job {
    let mut damaged = *job;
    for _ in 0..random.between(1, 3) {
        let i = random.below(6);
        damaged.axes[i] = match random.below(9) {
            0 => {
                damaged.mask = random.pick(&[0, 64, 65, 1 << 31, u32::MAX, job.mask | 1 << i, job.mask ^ 1 << i]);
                damaged.axes[i]
            }
            1 => {
                damaged.asked = random.pick(&[0, 1, 4_096, 4_097, 1 << 28, u32::MAX]);
                damaged.axes[i]
            }
            2..=4 => {
                let (j, value) = (random.below(6), random.pick(&SIGNED_ENDS));
                with_signed(damaged.axes[i], j, value)
            }
            5 => accelerating(random, damaged.axes[i]),
            6 => Axis { damping: strange_damping(random), ..damaged.axes[i] },
            _ => {
                let (j, value) = (random.below(6), random.pick(&UNSIGNED_ENDS));
                with_unsigned(damaged.axes[i], j, value)
            }
        };
    }
    damaged
}
