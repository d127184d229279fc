//! Reach goes on: what the theorem says of every axis and every job, held to every tick by brute
//! force. An axis that reaches an arrival reaches the next one, unless its target is too fast by
//! then; the arrivals at which it is slow enough are one run of ticks; what an axis reaches is one
//! run, and so is what all axes of a job reach.

use outside::jobs::{self, Reach};
use outside::library;
use outside::random::Random;
use outside::reference::{Axis, Damping, Job, Target, UNSET};

/// Whether each tick from 0 to the last is reached by the axes of a mask. No cell is lent: a
/// reached arrival is refused by 10.
fn reached(job: &Job, mask: u32, last: u32) -> Vec<bool> {
    let mut asking = Job { mask, windows: None, ..*job };
    (0..=last)
        .map(|n| {
            asking.asked = n;
            n > 0 && library::plan_typed(&asking, &mut []).number == 10
        })
        .collect()
}

/// Rule 4's condition on speed, in 1/256 of a unit and with no grid: the planned velocities at
/// the landing and at the arrival.
fn slow(axis: &Axis, tick: u32) -> bool {
    let (h, second) = (i128::from(axis.half_period), i128::from(axis.second.unwrap_or(0)));
    let (v, a, t) = match axis.target {
        Target::Fixed { velocity, .. } => (i128::from(velocity), 0, 0),
        Target::Moving { velocity, acceleration, tick, .. } => {
            (i128::from(velocity), i128::from(acceleration), i128::from(tick))
        }
    };
    let shift = i128::from(axis.damping.weight()) * h + 128 * second;
    let landed = 256 * (v + a * (i128::from(tick) - h - second - t)) + shift * a;
    let arrived = landed + 256 * (h + second) * a;
    let limit = 256 * i128::from(axis.speed_limit);
    landed.abs() <= limit && arrived.abs() <= limit
}

/// How many runs of ticks are marked.
fn runs(marks: &[bool]) -> usize {
    let before = std::iter::once(&false).chain(marks);
    marks.iter().zip(before).filter(|(&now, &before)| now && !before).count()
}

/// Holds an axis of a job to the theorem. Answers the number of its runs, and whether the
/// run ended before the last tick.
fn hold_axis(job: &Job, number: usize, last: u32) -> (usize, bool) {
    let axis = &job.axes[number];
    let ticks = reached(job, 1 << number, last);
    let first = axis.half_period + axis.second.unwrap_or(0) + 1;
    let speeds: Vec<bool> = (0..=last).map(|n| n >= first && slow(axis, n)).collect();
    assert!(runs(&speeds) <= 1, "the speed run has a gap: {axis:?}");
    for n in first as usize..last as usize {
        assert!(!ticks[n] || speeds[n], "tick {n} is reached, and the target is too fast: {axis:?}");
        assert!(!ticks[n] || ticks[n + 1] || !speeds[n + 1], "reach does not go on from {n}: {axis:?}");
    }
    assert!(runs(&ticks) <= 1, "{axis:?}");
    (runs(&ticks), runs(&ticks) == 1 && !ticks[last as usize])
}

#[test]
fn reach_goes_on_while_the_target_is_slow_enough() {
    let mut random = Random::new(8);
    let (mut counts, mut ended, mut together) = ([0; 2], 0, [0; 2]);
    for _ in 0..2_500 {
        let job = jobs::job(&mut random, Reach::Near);
        let set: Vec<usize> = job.set().map(|(number, _)| number).collect();
        for &number in &set {
            let (found, over) = hold_axis(&job, number, 120);
            counts[found] += 1;
            ended += usize::from(over);
        }
        let common = runs(&reached(&job, job.mask, 120));
        assert!(common <= 1, "{common} runs of common arrivals: {job:?}");
        together[common] += 1;
    }
    let seen = counts.iter().chain(&together).all(|&n| n > 0) && ended > 0;
    assert!(seen, "alone {counts:?}, of which {ended} ended; together {together:?}");
}

/// The target of docs/METHOD.md, 3.7: it is met at ticks 9, 10 and 11 and never after them.
#[test]
fn a_run_that_ends_is_found() {
    let target = Target::Moving { position: 8, velocity: -1, acceleration: 1, tick: 0 };
    let axis = Axis { speed_limit: 10, acceleration_limit: 1, damping: Damping::Weight(128), target, ..UNSET };
    let job = Job { mask: 1, asked: 0, axes: [axis; 6], windows: None };
    let ticks: Vec<u32> =
        (1..=4_096).filter(|&n| library::plan_typed(&Job { asked: n, ..job }, &mut []).number == 10).collect();
    assert_eq!(ticks, [9, 10, 11]);
    assert_eq!(library::plan_typed(&job, &mut []).arrival, 9);
}
