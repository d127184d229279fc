//! What holds of the table of every accepted job, looked at on random jobs: the head
//! starts without a jump, lands exactly, follows from row to row, keeps its limits, and
//! leaves no more sway than rounding can.

mod common;

use common::Random;
use polgamir::{plan, plan_words, Accepted, Axis, Job, Motion, RestPoint, State, Target, LATEST_ARRIVAL};

/// The motions of an axis of an accepted job.
fn motions(accepted: &Accepted, number: usize) -> Vec<Motion> {
    accepted.rows().map(|row| row.axis(number).expect("an axis of the job")).collect()
}

/// Where an axis is to be at arrival, in fine steps.
fn landing(axis: &Axis, arrival: u32) -> Motion {
    match axis.target {
        Target::Fixed(RestPoint { position, velocity }) => {
            Motion { position: 256 * position, velocity: 256 * velocity, acceleration: 0 }
        }
        Target::Moving(State { position, velocity, acceleration, tick }) => {
            let since = i64::from(arrival) - tick;
            Motion {
                position: 256 * (position + velocity * since) + 128 * acceleration * since * since,
                velocity: 256 * (velocity + acceleration * since),
                acceleration: 256 * acceleration,
            }
        }
    }
}

/// Looks at start, landing, carrying on and limits.
fn look_at_motion(axis: &Axis, rows: &[Motion], arrival: u32) {
    assert_eq!((rows[0].position, rows[0].velocity), (256 * axis.start.position, 256 * axis.start.velocity));
    assert_eq!(*rows.last().expect("a last row"), landing(axis, arrival));
    for pair in rows.windows(2) {
        let (row, next) = (pair[0], pair[1]);
        assert!((2 * (row.position + row.velocity - next.position) + row.acceleration).abs() <= 3);
        assert!((2 * (row.velocity + row.acceleration - next.velocity)).abs() <= 3);
    }
    for row in rows {
        assert!(row.velocity.abs() <= 256 * i64::from(axis.speed_limit));
        assert!(row.acceleration.abs() <= 256 * i64::from(axis.acceleration_limit));
    }
}

/// The half periods of an axis that sways, each with its second weight: a second sway is undamped.
fn rates(axis: &Axis) -> Vec<(usize, u32)> {
    let first = (axis.half_period > 0).then_some(axis.half_period).zip(axis.damping.weight());
    let second = axis.second_half_period.map(|half_period| (half_period, 128));
    first.into_iter().chain(second).map(|(half_period, weight)| (half_period as usize, weight)).collect()
}

/// A swing list with entries up to tick `last`: A × g(i + h) + B × g(i) = 0, from whole
/// numbers that a generator chooses.
fn swing_list((half_period, weight): (usize, u32), last: usize, random: &mut Random) -> Option<Vec<i128>> {
    let (first_weight, second_weight) = (256 - i128::from(weight), i128::from(weight));
    let divisor = (1..=second_weight).rev().find(|d| first_weight % d == 0 && second_weight % d == 0)?;
    let (first_weight, second_weight) = (first_weight / divisor, second_weight / divisor);
    // Entries that can be divided by the first weight as often as the list goes on.
    let scale = first_weight.checked_pow((last / half_period) as u32).filter(|scale| *scale < 1 << 80)?;
    let mut list: Vec<i128> = (0..half_period).map(|_| scale * i128::from(random.between(-9, 9))).collect();
    while list.len() <= last {
        list.push(-list[list.len() - half_period] * second_weight / first_weight);
    }
    list.truncate(last + 1);
    Some(list)
}

/// Looks at the sway that the rows leave at a rate, at some ticks from the arrival on; true where
/// there was a list to look with.
fn look_at_sway(rate: (usize, u32), rows: &[Motion], random: &mut Random) -> bool {
    let arrival = rows.len() - 1;
    let mut looked = false;
    for tick in [arrival, arrival + 1, arrival + random.between(2, 90) as usize] {
        let Some(list) = swing_list(rate, tick, random) else { continue };
        let greatest = list.iter().map(|entry| entry.abs()).max().unwrap_or(0);
        let mut before = 0;
        let mut sway = 0;
        for (row, motion) in rows.iter().enumerate() {
            sway += i128::from(motion.acceleration - before) * list[tick - row];
            before = motion.acceleration;
        }
        assert!(sway.abs() <= arrival as i128 * greatest, "{rate:?} tick {tick}");
        looked = true;
    }
    looked
}

#[test]
fn tables_keep_what_is_promised() {
    let mut random = Random(0x0001_9E3D_77C4_A151);
    let (mut accepted_jobs, mut looked_at_sway, mut second_sways) = (0, 0, 0);
    for _ in 0..1500 {
        let job = random.plannable_job();
        let mut table = vec![i64::MIN; job.enough_cells() + 5];
        let Ok(accepted) = plan(&job, &mut table) else {
            assert!(table.iter().all(|&cell| cell == i64::MIN), "a refused job writes nothing");
            continue;
        };
        accepted_jobs += 1;
        assert!((1..=LATEST_ARRIVAL).contains(&accepted.arrival()));
        assert_eq!(accepted.axes().0, job.mask());
        for (number, axis) in job.entered() {
            let rows = motions(&accepted, number);
            assert_eq!(rows.len() as u32, accepted.arrival() + 1);
            look_at_motion(axis, &rows, accepted.arrival());
            for rate in rates(axis) {
                looked_at_sway += usize::from(look_at_sway(rate, &rows, &mut random));
            }
            second_sways += usize::from(axis.second_half_period.is_some());
        }
        let written = accepted.cells().len();
        assert!(table[written..].iter().all(|&cell| cell == i64::MIN), "cells after the last row stay as they were");
    }
    assert!(accepted_jobs > 700, "{accepted_jobs}");
    assert!(looked_at_sway > 500 && second_sways > 300, "{looked_at_sway} {second_sways}");
}

/// A job gets the same answer from typed values and from its words.
#[test]
fn words_and_typed_values_agree() {
    let mut random = Random(0x51AB_3000_0000_0007);
    for round in 0..600 {
        let job = if round % 3 == 0 { random.any_job() } else { random.plannable_job() };
        let words = job.to_words().expect("numbers that fit");
        let (mut table, mut other) = (vec![0; job.enough_cells()], vec![0; job.enough_cells()]);
        assert_eq!(plan(&job, &mut table), plan_words(&words, &mut other));
        assert_eq!(table, other);
    }
}

/// Many threads plan at the same time, each into its own table.
#[test]
fn threads_plan_side_by_side() {
    let mut random = Random(0x7777_1234_0000_0001);
    let jobs: Vec<Job> = (0..24).map(|_| random.plannable_job()).collect();
    let plan_all = || -> Vec<Vec<i64>> {
        let tables = jobs.iter().map(|job| {
            let mut table = vec![0; job.enough_cells()];
            let _ = plan(job, &mut table);
            table
        });
        tables.collect()
    };
    let alone = plan_all();
    std::thread::scope(|scope| {
        let threads: Vec<_> = (0..4).map(|_| scope.spawn(plan_all)).collect();
        for thread in threads {
            assert_eq!(thread.join().expect("a thread that ends"), alone);
        }
    });
}

/// What the crate hands out can go from thread to thread.
#[test]
fn values_go_between_threads() {
    fn goes<T: Send + Sync>() {}
    goes::<Job>();
    goes::<Accepted<'static>>();
    goes::<polgamir::Refusal>();
    goes::<polgamir::sheet::Sheet>();
    goes::<polgamir::Tour>();
    goes::<polgamir::TourRefusal>();
}
