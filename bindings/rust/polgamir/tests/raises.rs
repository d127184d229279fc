//! The least raise of a limit for which an axis arrives: what a raise says, of random jobs,
//! from typed values and from words.

mod common;

use common::{field_axis, Random};
use polgamir::{raises, raises_words, Axis, AxisRaises, Job, Limit, Raise, Refusal, RestPoint, Target, Window};

fn raise(limit: Limit, by: u32) -> Option<Raise> {
    Some(Raise { limit, by })
}

/// The raises of a job of one axis, which refusal 8 names.
fn of_one(asked: u32, axis: Axis) -> AxisRaises {
    let raises = raises(&Job::arriving_at(asked).with_axis(0, axis));
    let named: Vec<_> = raises.axes().collect();
    assert_eq!(named.len(), 1);
    assert_eq!(raises.of_axis(0), named[0].1);
    named[0].1
}

/// The method's case E, and jobs worked out by hand.
#[test]
fn small_jobs_have_their_raises() {
    let to = |speed_limit, position| Axis { speed_limit, ..field_axis(Target::still(position)) };
    let only = |limit, by| AxisRaises { first: raise(limit, by), second: None };
    assert_eq!(of_one(3, to(10, 4)), only(Limit::Acceleration, 1));
    let equal = AxisRaises { first: raise(Limit::Acceleration, 1), second: raise(Limit::Speed, 1) };
    assert_eq!(of_one(6, to(2, 9)), equal);
    let moving = Axis { start: RestPoint { position: 0, velocity: 2 }, ..to(3, 22) };
    let smaller_first = AxisRaises { first: raise(Limit::Speed, 1), second: raise(Limit::Acceleration, 2) };
    assert_eq!(of_one(8, moving), smaller_first);
    assert_eq!(of_one(3, Axis { half_period: 3, ..to(10, 4) }), AxisRaises::default());
}

/// A raise heeds no window; mask 0 has none; any other answer has none, and 10 never comes.
#[test]
fn other_answers_have_no_raise() {
    let to_four = field_axis(Target::still(4));
    let window = [Window { opening: 6, closing: 7 }];
    let job = |asked| Job::arriving_at(asked).with_axis(2, to_four).with_windows(0, &window);
    assert_eq!(raises(&job(3)).of_axis(2).first, raise(Limit::Acceleration, 1));
    assert_eq!(raises(&job(4)).arrival().map_err(|refusal| refusal.mask().is_empty()), Err(true));
    assert_eq!(raises(&job(4)).axes().count(), 0);
    assert_eq!(raises(&job(6)).arrival(), Ok(6));
    assert_eq!(Job::earliest().raises().arrival(), Err(Refusal::Mask));
    assert_eq!(raises_words(&[]).arrival(), Err(Refusal::Mask));
}

/// Each raise of a random job is enough, one less is not, and where a limit has none
/// its highest value is not enough.
#[test]
fn raises_are_least() {
    let mut random = Random(210);
    let mut seen = [0; 3];
    for _ in 0..2000 {
        let axis = Axis {
            start: RestPoint { position: 0, velocity: random.between(-3, 3) },
            speed_limit: random.between(3, 9) as u32,
            acceleration_limit: random.between(1, 3) as u32,
            half_period: random.between(0, 3) as u32,
            ..field_axis(Target::still(random.between(-60, 60)))
        };
        let job = Job::arriving_at(random.between(1, 12) as u32).with_axis(0, axis);
        let answer = raises(&job);
        assert_eq!(answer.arrival(), job.arrival_found());
        assert_eq!(raises_words(&job.to_words().expect("whole numbers in range")), answer);
        let reached = |axis: Axis| job.with_axis(0, axis).arrival_found().is_ok();
        for (_, raises) in answer.axes() {
            seen[raises.iter().count()] += 1;
            for raise in raises.iter() {
                assert!(reached(raise.applied(axis)));
                assert!(!reached(Raise { by: raise.by - 1, ..raise }.applied(axis)));
            }
            let has = |limit| raises.iter().any(|raise| raise.limit == limit);
            assert!(has(Limit::Acceleration) || !reached(Axis { acceleration_limit: 65536, ..axis }));
            assert!(has(Limit::Speed) || !reached(Axis { speed_limit: 1_048_576, ..axis }));
        }
    }
    assert!(seen.iter().all(|&count| count > 20), "{seen:?}");
}
