//! Searches between servo turns. The expected values are those of request 2.12 and its readings;
//! 'B4' is the field cases' axis on its way to 4, which reaches tick 4 and every later one.

mod common;

use common::{case_c, field_axis, Random};
use polgamir::{search_words, Arrival, Axis, Job, Refusal, Report, Searched, Target, Window, LATEST_ARRIVAL};

fn b4() -> Job {
    Job::earliest().with_axis(0, field_axis(Target::still(4)))
}

/// A job that reaches no arrival.
fn never() -> Job {
    Job::earliest().with_axis(0, Axis { speed_limit: 1, ..field_axis(Target::still(100_000_000)) })
}

/// A job with another asked arrival.
fn asking(mut job: Job, asked: u32) -> Job {
    job.arrival = Arrival::from(asked);
    job
}

fn found(arrival: u32, tried: u32) -> Result<Searched, Refusal> {
    Ok(Searched { report: Report::Found { arrival }, tried })
}

fn spent(next: u32, tried: u32) -> Result<Searched, Refusal> {
    Ok(Searched { report: Report::Spent { next }, tried })
}

fn none(tried: u32) -> Result<Searched, Refusal> {
    Ok(Searched { report: Report::None, tried })
}

#[test]
fn the_least_within_the_budget_is_found() {
    assert_eq!(b4().search(1, 4096), found(4, 4));
    assert_eq!(b4().search(1, 4), found(4, 4));
    assert_eq!(b4().search(1, 3), spent(4, 3));
    assert_eq!(b4().search(4, 1), found(4, 1));
    assert_eq!(b4().search(9, 2), found(9, 1));
    assert_eq!(b4().search(4096, u32::MAX), found(4096, 1));
}

#[test]
fn none_is_reported_where_no_candidate_is_left() {
    assert_eq!(never().search(4096, 1), none(1));
    assert_eq!(never().search(4096, 0), spent(4096, 0));
    assert_eq!(never().search(1, 4095), spent(4096, 4095));
    assert_eq!(never().search(1, 4096), none(4096));
    assert_eq!(never().search(2, u32::MAX), none(4095));
    for job in [b4(), never()] {
        assert_eq!(job.search(4097, 0), none(0));
        assert_eq!(job.search(4097, u32::MAX), none(0));
        assert_eq!(job.search(1, 0), spent(1, 0));
    }
}

#[test]
fn candidates_outside_windows_are_tried() {
    let job = b4().with_windows(0, &[Window { opening: 7, closing: 9 }, Window { opening: 20, closing: 30 }]);
    assert_eq!(job.search(1, 6), spent(7, 6));
    assert_eq!(job.search(1, 7), found(7, 7));
    assert_eq!(job.search(8, 1), found(8, 1));
    assert_eq!(job.search(9, 11), spent(20, 11));
    assert_eq!(job.search(9, 12), found(20, 12));
    assert_eq!(job.search(30, 4066), spent(4096, 4066));
    assert_eq!(job.search(30, 4067), none(4067));
}

#[test]
fn the_asked_arrival_is_not_read() {
    for asked in [0, 3, 4097, u32::MAX] {
        assert_eq!(asking(b4(), asked).search(1, 9), found(4, 4));
    }
    let words = case_c().to_words().expect("words");
    assert_eq!(search_words(&words, 1, 9), found(2, 2));
}

#[test]
fn refusals_come_in_checking_order() {
    for first in [0, 4098, u32::MAX] {
        assert_eq!(b4().search(first, 9), Err(Refusal::FirstCandidate));
        assert_eq!(b4().with_windows(0, &[]).search(first, 9), Err(Refusal::Windows { place: 0 }));
        assert_eq!(Job::earliest().search(first, 9), Err(Refusal::Mask));
        let slow = Axis { speed_limit: 0, ..field_axis(Target::still(4)) };
        assert_eq!(Job::earliest().with_axis(2, slow).search(first, 9), Err(Refusal::Limits { axis: 2 }));
        assert_eq!(search_words(&[], first, 9), Err(Refusal::Mask));
        assert_eq!(search_words(&[0x10000001], first, 9), Err(Refusal::Words { index: 1 }));
    }
}

/// A job of any kind that is mostly accepted, every other time with some
/// windows in the first few hundred ticks.
fn drawn(random: &mut Random) -> Job {
    let job = asking(random.plannable_job(), 0);
    if random.once_in(2) {
        return job;
    }
    let (mut tick, mut windows) = (0, Vec::new());
    for _ in 0..random.between(1, 8) {
        let opening = tick + random.small(90) as u32;
        tick = opening + random.between(1, 60) as u32;
        windows.push(Window { opening, closing: tick });
    }
    job.with_windows(random.small(20) as u32, &windows)
}

/// Found is the first tick that the job is accepted with where it is asked for, and the number
/// tried follows from the report.
#[test]
fn a_search_finds_the_first_tick_that_can_be_asked_for() {
    let mut random = Random(1212);
    for _ in 0..1500 {
        let job = drawn(&mut random);
        let (first, budget) = (random.between(1, 300) as u32, random.small(60) as u32);
        let arrives = |&tick: &u32| asking(job, tick).arrival_found().is_ok();
        let expected = match (first..first + budget).find(arrives) {
            Some(tick) => found(tick, tick - first + 1),
            None => spent(first + budget, budget),
        };
        assert_eq!(job.search(first, budget), expected, "{job:?} from {first} with {budget}");
    }
}

/// A search with the budgets one after the other, from 1 on: the tick or none, and how
/// many candidates were tried in all.
fn in_parts(job: &Job, mut budget: impl FnMut() -> u32) -> (Option<u32>, u32, usize) {
    let (mut first, mut tried) = (1, 0);
    for calls in 1.. {
        let part = job.search(first, budget()).expect("a search that is not refused");
        tried += part.tried;
        match part.report {
            Report::Found { arrival } => return (Some(arrival), tried, calls),
            Report::None => return (None, tried, calls),
            Report::Spent { next } => first = next,
        }
    }
    unreachable!("a search ends")
}

/// Whatever the budgets are, the parts come to one undivided search, whose tick is the job's
/// own arrival and can be asked for.
#[test]
fn parts_come_to_one_undivided_search() {
    let mut random = Random(212);
    for round in 0..400 {
        let job = drawn(&mut random);
        let whole = job.search(1, LATEST_ARRIVAL).expect("a search that is not refused");
        let arrival = match whole.report {
            Report::Found { arrival } => Some(arrival),
            Report::Spent { .. } | Report::None => None,
        };
        assert_eq!(arrival, job.arrival_found().ok());
        assert_eq!(whole.tried, arrival.unwrap_or(LATEST_ARRIVAL));
        let parts = in_parts(&job, || random.between(0, 500) as u32);
        assert_eq!((parts.0, parts.1), (arrival, whole.tried));
        if round % 20 == 0 {
            let (ends, tried, calls) = in_parts(&job, || 1);
            assert_eq!((ends, tried), (arrival, whole.tried));
            assert!(calls <= 4096);
        }
        if let Some(tick) = arrival {
            assert_eq!(asking(job, tick).plan().map(|plan| plan.arrival()), Ok(tick));
        }
    }
}
