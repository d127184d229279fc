//! Jobs whose search for the least arrival takes long.

use outside::reference::{Axis, Damping, Job, Target, Windows, UNSET};

/// Six axes that reach no arrival: each is asked alone, after one of them has led past the last for
/// all.
pub fn out_of_reach() -> Job {
    let target = Target::Fixed { position: 100_000_000, velocity: 0 };
    let axis = Axis { speed_limit: 1, acceleration_limit: 1, damping: Damping::Weight(128), target, ..UNSET };
    Job { mask: 63, asked: 0, axes: [axis; 6], windows: None }
}

/// Six axes that lead each other on: each comes to rest some ticks later than the one before it
/// can.
pub fn in_turns() -> Job {
    let resting = |position: i64| {
        let target = Target::Fixed { position, velocity: 0 };
        Axis { speed_limit: 1_000, acceleration_limit: 1, damping: Damping::Weight(128), target, ..UNSET }
    };
    let axes = [2_450_000, 2_550_000, 2_650_000, 2_750_000, 2_850_000, 2_950_000].map(resting);
    Job { mask: 63, asked: 0, axes, windows: None }
}

/// Some axes whose targets accelerate, far ahead and at a speed that the axes can reach.
pub fn accelerating(axes: u32) -> Job {
    let target = Target::Moving { position: 130_000_000, velocity: 0, acceleration: 1, tick: 0 };
    let axis = Axis { speed_limit: 5_000, acceleration_limit: 2, damping: Damping::Weight(128), target, ..UNSET };
    Job { mask: (1 << axes) - 1, asked: 0, axes: [axis; 6], windows: None }
}

/// A job with as many windows as there may be, side by side over all candidates.
pub fn in_windows(job: Job) -> Job {
    let pairs: [(u32, u32); 32] = std::array::from_fn(|i| (128 * i as u32, 128 * (i as u32 + 1)));
    Job { windows: Some(Windows::new(0, &pairs)), ..job }
}

/// A target that moves, with its velocity, acceleration and tick.
fn moving(position: i64, [velocity, acceleration, tick]: [i64; 3]) -> Target {
    Target::Moving { position, velocity, acceleration, tick }
}

/// Six axes by their limits, blends, start velocities and targets.
fn six_of(axes: [([u32; 4], i64, Target); 6]) -> Job {
    let axes = axes.map(|([speed_limit, acceleration_limit, half_period, weight], start_velocity, target)| Axis {
        start_velocity,
        speed_limit,
        acceleration_limit,
        half_period,
        damping: Damping::Weight(weight),
        target,
        ..UNSET
    });
    Job { mask: 63, asked: 0, axes, windows: None }
}

/// The longest search that was found by 20,000 changes of random jobs of six axes whose targets
/// do not accelerate.
pub fn longest_steady() -> Job {
    let fixed = |position| Target::Fixed { position, velocity: 0 };
    six_of([
        ([89, 14, 0, 128], 0, moving(-5_128, [16, 0, 39])),
        ([16, 14, 0, 128], 0, moving(-20_481, [16, 0, 39])),
        ([373_841, 312, 0, 128], 0, fixed(74_693_955)),
        ([1_048_576, 312, 0, 128], 0, fixed(83_438_979)),
        ([21_395, 18, 33, 128], 511, moving(-6_076_246, [1_591, 0, 144])),
        ([74_495, 3, 0, 128], 0, moving(-690_519_644, [-5_588, 0, 42])),
    ])
}

/// The same of jobs whose targets accelerate: nearly every axis is halved down.
pub fn longest_accelerating() -> Job {
    six_of([
        ([462_542, 3_786, 14, 128], 462_542, moving(8_358_235, [374_281, 4, 110])),
        ([462_542, 1_000, 14, 128], 462_542, moving(8_836_356, [389_235, -13, 110])),
        ([1_030_072, 1_691, 0, 15], 298_754, moving(1_672_895, [-288_556, -15, 80])),
        ([1_030_072, 1_691, 0, 15], 298_754, moving(-577_029, [-289_542, -7, 80])),
        ([879, 462, 38, 117], -571, moving(-368_685, [-879, 1, 77])),
        ([211_609, 52, 0, 128], 0, moving(85_827_623, [2_990, -3, 96])),
    ])
}
