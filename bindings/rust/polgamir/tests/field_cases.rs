//! The field cases of docs/METHOD.md, through the calls of this crate.

mod common;

use common::{case_c, field_axis, CASE_C_TABLE, CASE_C_WORDS};
use polgamir::{plan, plan_words, Accepted, Axis, AxisMask, Damping, Job, Motion, Refusal, RestPoint, State, Target};

/// Plans a job with one axis 0 and gives its motions.
fn motions(job: &Job) -> Vec<Motion> {
    let mut table = vec![0; job.enough_cells()];
    let accepted = plan(job, &mut table).expect("an accepted job");
    accepted.rows().map(|row| row.axis(0).expect("axis 0")).collect()
}

/// The refusal of a job.
fn refusal(job: &Job) -> Refusal {
    plan(job, &mut vec![0; job.enough_cells()]).expect_err("a refused job")
}

/// The arrival of a job.
fn arrival(job: &Job) -> u32 {
    plan(job, &mut vec![0; job.enough_cells()]).expect("an accepted job").arrival()
}

/// An accepted job as the table program prints it.
fn printed(accepted: &Accepted) -> String {
    let mut text = format!("arrival {}\n", accepted.arrival());
    for row in accepted.rows() {
        let cells: Vec<String> = row.cells().iter().map(i64::to_string).collect();
        text += &format!("{} {}\n", row.tick(), cells.join(" "));
    }
    text
}

/// Axis 0 of case F as a converted job has it: the target is at 10, at 10 units
/// per tick, at the asked arrival.
fn axis_of_f(asked: u32) -> Axis {
    let target = State { position: 10, velocity: 10, acceleration: 0, tick: asked.into() };
    let start = RestPoint { position: 0, velocity: 10 };
    Axis { start, speed_limit: 20, ..field_axis(Target::Moving(target)) }
}

#[test]
fn a_stays_where_it_is() {
    let start = RestPoint { position: 5, velocity: 0 };
    let job = Job::earliest().with_axis(0, Axis { start, ..field_axis(Target::still(5)) });
    let still = Motion { position: 1280, velocity: 0, acceleration: 0 };
    assert_eq!(motions(&job), [still, still]);
}

#[test]
fn b_takes_four_ticks() {
    let job = Job::earliest().with_axis(0, field_axis(Target::still(4)));
    let positions: Vec<i64> = motions(&job).iter().map(|motion| motion.position).collect();
    assert_eq!(positions, [0, 128, 512, 896, 1024]);
}

/// Request 2.6: the numbers are those of `tests/reference`.
#[test]
fn an_accelerating_target_on_a_damped_pole() {
    let target = Target::Moving(State { position: 0, velocity: 0, acceleration: 1, tick: 0 });
    let axis = Axis { acceleration_limit: 2, half_period: 3, damping: Damping::Weight(100), ..field_axis(target) };
    let motions = motions(&Job::earliest().with_axis(0, axis));
    let positions: Vec<i64> = motions.iter().map(|motion| motion.position).collect();
    assert_eq!(positions, [0, 156, 589, 1190, 2019, 3181, 4608]);
    assert_eq!(motions[6], Motion { position: 4608, velocity: 1536, acceleration: 256 });
}

#[test]
fn c_is_the_printed_table() {
    let mut table = [7; 17];
    let accepted = plan(&case_c(), &mut table).expect("case C");
    assert_eq!(printed(&accepted), CASE_C_TABLE);
    assert_eq!(accepted.axes(), AxisMask(1));
    assert_eq!(table[15..], [7, 7], "cells after the last row stay as they were");

    let mut table = [7; 17];
    let accepted = plan_words(&CASE_C_WORDS, &mut table).expect("the words of case C");
    assert_eq!(printed(&accepted), CASE_C_TABLE);
    assert_eq!(table[15..], [7, 7]);
}

#[test]
fn d_blends() {
    let axis = Axis { half_period: 1, ..field_axis(Target::still(1)) };
    let rows = motions(&Job::earliest().with_axis(0, axis));
    let cells: Vec<[i64; 3]> = rows.iter().map(|row| [row.position, row.velocity, row.acceleration]).collect();
    assert_eq!(cells, [[0, 0, 128], [64, 128, 0], [192, 128, -128], [256, 0, 0]]);
}

#[test]
fn e_is_refused_with_8() {
    let job = Job::arriving_at(3).with_axis(0, field_axis(Target::still(4)));
    assert_eq!(refusal(&job), Refusal::NotReachable { axes: AxisMask(1) });
    assert_eq!(refusal(&job).printed_line(), "refused 8 place 0 axes 1 arrival 0");
}

#[test]
fn f_reaches_1_and_then_nothing_before_39() {
    for asked in [2, 38] {
        let job = Job::arriving_at(asked).with_axis(0, axis_of_f(asked));
        assert_eq!(refusal(&job), Refusal::NotReachable { axes: AxisMask(1) });
    }
    for asked in [1, 39] {
        assert_eq!(arrival(&Job::arriving_at(asked).with_axis(0, axis_of_f(asked))), asked);
    }
    let flying = Axis { target: Target::Fixed(RestPoint { position: 10, velocity: 10 }), ..axis_of_f(39) };
    for job in [Job::earliest(), Job::arriving_at(39)] {
        assert_eq!(refusal(&job.with_axis(2, flying)), Refusal::FlyingTarget { axis: 2 });
    }
}

/// Reach is no threshold: an accelerating target is met at ticks 9 to 11 only.
#[test]
fn a_run_of_arrivals_ends() {
    let target = Target::Moving(State { position: 8, velocity: -1, acceleration: 1, tick: 0 });
    assert_eq!(arrival(&Job::earliest().with_axis(0, field_axis(target))), 9);
    let reached: Vec<u32> =
        (1..60).filter(|&n| Job::arriving_at(n).with_axis(0, field_axis(target)).plan().is_ok()).collect();
    assert_eq!(reached, [9, 10, 11]);
}

#[test]
fn g_arrives_together() {
    let tilt = field_axis(Target::still(1));
    assert_eq!(arrival(&Job::earliest().with_axis(1, tilt)), 2);
    assert_eq!(arrival(&Job::arriving_at(39).with_axis(0, axis_of_f(39)).with_axis(1, tilt)), 39);
}

#[test]
fn h_joins_a_moving_target() {
    let target = Target::Moving(State { position: 0, velocity: 1, acceleration: 0, tick: 0 });
    let rows = motions(&Job::earliest().with_axis(0, field_axis(target)));
    let velocities: Vec<i64> = rows.iter().map(|motion| motion.velocity).collect();
    assert_eq!(velocities, [0, 256, 384, 256]);
}

#[test]
fn i_wants_a_mask_from_1_to_63() {
    let mut table = [0; 15];
    assert_eq!(plan_words(&[], &mut table), Err(Refusal::Mask));
    assert_eq!(plan_words(&[0x10000040], &mut table), Err(Refusal::Mask));
    assert_eq!(plan_words(&[0x1000003F], &mut table), Err(Refusal::Words { index: 1 }));
    assert_eq!(plan(&Job::earliest(), &mut table), Err(Refusal::Mask));
}

#[test]
fn j_wants_15_cells() {
    let mut table = [7; 15];
    let refusal = plan(&case_c(), &mut table[..14]).expect_err("a table that is too short");
    assert_eq!(refusal, Refusal::TableTooShort { arrival: 4 });
    assert_eq!(refusal.printed_line(), "refused 10 place 0 axes 0 arrival 4");
    assert_eq!(table, [7; 15], "a refused job writes nothing");
    assert_eq!(polgamir::cells_needed(1, 4), 15);
    assert!(plan(&case_c(), &mut table).is_ok());
}

#[test]
fn k_wants_a_weight_up_to_128() {
    let job = Job::earliest().with_axis(3, Axis { damping: Damping::Weight(129), ..field_axis(Target::still(1)) });
    assert_eq!(refusal(&job), Refusal::Blend { axis: 3 });
}

#[test]
fn l_is_too_far() {
    let job = Job::earliest().with_axis(0, Axis { speed_limit: 1, ..field_axis(Target::still(100_000_000)) });
    assert_eq!(refusal(&job), Refusal::NoCommonArrival { axes: AxisMask(1) });
}

#[test]
fn the_other_refusals_name_their_places() {
    let axis = field_axis(Target::still(1));
    let job = Job::arriving_at(4097).with_axis(0, axis);
    assert_eq!(refusal(&job), Refusal::AskedArrival);
    assert_eq!(refusal(&job).printed_line(), "refused 3 place 1 axes 0 arrival 0");

    let job = Job::earliest().with_axis(0, axis).with_axis(2, Axis { speed_limit: 0, ..axis });
    assert_eq!(refusal(&job), Refusal::Limits { axis: 2 });

    let start = RestPoint { position: 0, velocity: i64::MIN };
    assert_eq!(refusal(&Job::earliest().with_axis(5, Axis { start, ..axis })), Refusal::StartOrTarget { axis: 5 });

    let target = Target::Moving(State { position: 0, velocity: 0, acceleration: 1, tick: 0 });
    let job = Job::earliest().with_axis(4, Axis { half_period: 2, damping: Damping::Weight(127), target, ..axis });
    assert_eq!(refusal(&job), Refusal::NoCommonArrival { axes: AxisMask(0b1_0000) });

    let job = Job::earliest().with_axis(0, field_axis(target)).with_axis(1, field_axis(Target::still(1000)));
    assert_eq!(refusal(&job), Refusal::NoCommonArrival { axes: AxisMask(0) });
}

/// The numbers that only typed values can hold are refused, and no such number breaks a call.
#[test]
fn extreme_numbers_are_refused() {
    let axis = field_axis(Target::still(1));
    for position in [i64::MIN, -17_179_869_185, 17_179_869_184, i64::MAX] {
        let job = Job::earliest().with_axis(0, Axis { target: Target::still(position), ..axis });
        assert_eq!(refusal(&job), Refusal::StartOrTarget { axis: 0 });
    }
    let job = Job::arriving_at(u32::MAX).with_axis(0, Axis { speed_limit: u32::MAX, ..axis });
    assert_eq!(refusal(&job), Refusal::AskedArrival);
}
