//! Demand 3 of docs/METHOD.md on the tables that the library writes, whose rows are read by tick:
//! the landing is exact, both misses are at most 3/2 fine steps on every row, and the sway of every
//! kind of swing list, of either rate, is 0 before rounding and at most N times G as rounded. The
//! start is exact and the limits on cells hold too.

use outside::accepted;
use outside::jobs::{self, Reach};
use outside::random::Random;
use outside::reference::{fits_a_word, Axis, Job, Planned};
use outside::swing;

fn start_is_exact(axis: &Axis, first: [i64; 3]) {
    assert_eq!(first[..2], [256 * axis.start_position, 256 * axis.start_velocity], "{axis:?}");
}

fn landing_is_exact(axis: &Axis, arrival: i64, last: [i64; 3]) {
    let (twice_position, velocity) = axis.target.at(arrival, arrival);
    let want = [128 * twice_position, 256 * velocity, 256 * axis.target.acceleration()];
    assert_eq!(last, want, "{axis:?} at {arrival}");
}

fn misses_are_small(rows: &[[i64; 3]]) {
    for pair in rows.windows(2) {
        let ([p, v, a], [next_p, next_v, _]) = (pair[0], pair[1]);
        assert!((2 * (p + v - next_p) + a).abs() <= 3, "position: {pair:?}");
        assert!(2 * (v + a - next_v).abs() <= 3, "velocity: {pair:?}");
    }
}

fn cells_are_within_limits(axis: &Axis, rows: &[[i64; 3]]) {
    let (speed, acceleration) = (256 * i64::from(axis.speed_limit), 256 * i64::from(axis.acceleration_limit));
    assert!(rows.iter().all(|&[_, v, a]| v.abs() <= speed && a.abs() <= acceleration), "{axis:?}");
}

/// The delay and the second weight of each blend of an axis: the swings that it
/// cancels. The second swing is undamped.
fn rates(axis: &Axis) -> Vec<(usize, i64)> {
    let first = (axis.half_period > 0).then_some((axis.half_period as usize, axis.weight()));
    first.into_iter().chain(axis.second.map(|delay| (delay as usize, 128))).collect()
}

/// The accelerations of an axis's rows, before and after they are rounded.
struct Accelerations {
    exact: Vec<i64>,
    rounded: Vec<i64>,
}

/// Tries swing lists of a rate, for ticks from the arrival on. Answers how many were not zero.
fn sway_is_cancelled(random: &mut Random, rate: (usize, i64), rows: &Accelerations, lists: usize) -> usize {
    let ((h, b), arrival) = (rate, rows.rounded.len() - 1);
    let longest = swing::longest(h, b, arrival + 3_000);
    let mut tried = 0;
    for _ in 0..lists {
        if longest < arrival {
            // No list of this length with entries that can be held here but the zero list.
            assert_eq!(swing::sway(&rows.rounded, &vec![0; arrival + 1]), 0);
            break;
        }
        let m = match random.below(3) {
            0 => arrival,
            1 => random.between(arrival as i64, longest.min(arrival + 2 * h) as i64) as usize,
            _ => random.between(arrival as i64, longest as i64) as usize,
        };
        let g = swing::list(random, h, b, m);
        assert!(swing::is_swing(&g, h, b));
        let most = g.iter().map(|entry| entry.abs()).max().unwrap();
        assert_eq!(swing::sway(&rows.exact, &g), 0, "{rate:?} at {arrival}, tick {m}");
        assert!(swing::sway(&rows.rounded, &g).abs() <= arrival as i128 * most, "{rate:?} at {arrival}, tick {m}");
        tried += usize::from(most > 0);
    }
    tried
}

/// The cells are those of the exact blend, and of the negated blend negated.
fn cells_are_rounded_alike(planned: &Planned, axis: &Axis, rows: &[[i64; 3]]) {
    for (k, row) in rows.iter().enumerate() {
        let negated = planned.exact(axis, k as i64).negated();
        assert_eq!(negated.cells().map(|cell| -cell), *row, "{axis:?} row {k}");
    }
}

/// What was tried: axes that landed, and of them those far out on the rail and those after
/// accelerating targets on damped poles; and swing lists that are not zero, of undamped and of
/// damped first swings and of second ones.
#[derive(Debug, Default)]
struct Tried {
    axes: usize,
    far_out: usize,
    accelerating: usize,
    undamped_lists: usize,
    damped_lists: usize,
    second_lists: usize,
}

impl Tried {
    fn axis(&mut self, random: &mut Random, axis: &Axis, rows: &[[i64; 3]], lists: usize) {
        let arrival = rows.len() - 1;
        start_is_exact(axis, rows[0]);
        landing_is_exact(axis, arrival as i64, rows[arrival]);
        misses_are_small(rows);
        cells_are_within_limits(axis, rows);
        let planned = Planned::reaching(axis, arrival as i64).unwrap().with_list();
        cells_are_rounded_alike(&planned, axis, rows);
        self.axes += 1;
        self.far_out += usize::from(!fits_a_word(axis.target.position()));
        let damped = axis.half_period > 0 && axis.weight() != 128;
        self.accelerating += usize::from(damped && axis.target.acceleration() != 0);
        let accelerations = Accelerations {
            exact: (0..=arrival as i64).map(|k| planned.exact(axis, k).acceleration).collect(),
            rounded: rows.iter().map(|row| row[2]).collect(),
        };
        for (place, rate) in rates(axis).into_iter().enumerate() {
            let tried = sway_is_cancelled(random, rate, &accelerations, lists);
            let second = place == 1 || axis.half_period == 0;
            let kind = match (second, damped) {
                (true, _) => &mut self.second_lists,
                (_, true) => &mut self.damped_lists,
                _ => &mut self.undamped_lists,
            };
            *kind += tried;
        }
    }
}

/// Tries `count` jobs.
fn run(seed: u64, draw: fn(&mut Random) -> Job, count: usize, lists: usize) -> Tried {
    let mut tried = Tried::default();
    accepted::each_axis(seed, draw, count, |random, axis, rows| tried.axis(random, axis, rows, lists));
    eprintln!("{tried:?}");
    tried
}

#[test]
fn near_jobs_meet_demand_3() {
    let tried = run(11, |random| jobs::job(random, Reach::Near), 10_000, 3);
    assert!(tried.axes > 1_000 && tried.far_out > 500 && tried.accelerating > 50, "{tried:?}");
    assert!(tried.undamped_lists > 1_000 && tried.damped_lists > 1_000 && tried.second_lists > 1_000, "{tried:?}");
}

#[test]
fn quick_jobs_meet_demand_3() {
    let tried = run(12, |random| jobs::job(random, Reach::Quick), 5_000, 3);
    assert!(tried.axes > 500 && tried.far_out > 100 && tried.accelerating > 30, "{tried:?}");
    assert!(tried.undamped_lists > 500 && tried.damped_lists > 500 && tried.second_lists > 500, "{tried:?}");
}

#[test]
fn asked_jobs_meet_demand_3() {
    let tried = run(13, |random| jobs::job(random, Reach::Asked), 1_000, 2);
    assert!(tried.axes > 200 && tried.far_out > 20, "{tried:?}");
    assert!(tried.undamped_lists > 100 && tried.damped_lists > 10 && tried.second_lists > 50, "{tried:?}");
}

#[test]
fn chasing_jobs_meet_demand_3() {
    let tried = run(14, jobs::chasing_job, 600, 2);
    assert!(tried.accelerating > 50 && tried.far_out > 20, "{tried:?}");
}
