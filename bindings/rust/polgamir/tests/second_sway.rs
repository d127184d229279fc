//! Poles that swing at two rates, from typed values, words and tours. The expected values are those
//! of request 2.9 and of its readings.

mod common;

use common::{field_axis, CASE_C_WORDS, FIELD_TOUR_AXIS};
use polgamir::{
    plan, plan_words, Axis, Damping, Job, Refusal, RestPoint, Schedule, State, Stop, Target, Tour, TourAxis,
    TourRefusal, Window,
};

/// The axis of the field cases on a pole with a second half period, to rest at 1.
fn jointed(half_period: u32, weight: u32, second_half_period: u32) -> Axis {
    let damping = Damping::Weight(weight);
    Axis { half_period, damping, second_half_period: Some(second_half_period), ..field_axis(Target::still(1)) }
}

/// A target that accelerates.
fn accelerating(acceleration: i64) -> Target {
    Target::Moving(State { position: 0, velocity: 0, acceleration, tick: 0 })
}

/// The refusal of a job of two axes, 1 and 4.
fn refusal_of(axes: [Axis; 2]) -> Refusal {
    let job = Job::earliest().with_axis(1, axes[0]).with_axis(4, axes[1]);
    job.plan().expect_err("a job that is refused")
}

#[test]
fn both_blends_come_before_one_rounding() {
    let plan = Job::earliest().with_axis(3, jointed(1, 100, 2)).plan().expect("a plan");
    assert_eq!(plan.arrival(), 5);
    let rows = [[0, 0, 78], [39, 78, -28], [103, 50, 28], [167, 78, -28], [231, 50, -50], [256, 0, 0]];
    assert_eq!(plan.cells(), rows.concat());
    let plan = Job::arriving_at(5).with_axis(0, jointed(0, 128, 1)).plan().expect("a plan");
    assert_eq!(plan.cells()[3..6], [21, 43, 43]);
}

/// Damping as measured stands beside a second half period as a weight does.
#[test]
fn a_measured_pole_may_have_a_second_sway() {
    let axis = jointed(1, 100, 2);
    let weight = Job::earliest().with_axis(0, axis).plan();
    let measured = Axis { damping: Damping::Peaks { first: 155.0, second: 101.0 }, ..axis };
    assert_eq!(Job::earliest().with_axis(0, measured).plan(), weight);
    let wrong = Axis { damping: Damping::Ratio(0.0), second_half_period: Some(0), ..axis };
    assert_eq!(refusal_of([axis, wrong]), Refusal::Damping { axis: 4 });
}

/// An arrival is later than both half periods together, also where there is no way to go.
#[test]
fn the_arrival_exceeds_both_half_periods() {
    for (half_period, second) in [(0, 1), (1, 2), (3, 4), (256, 256)] {
        let axis = Axis { target: Target::still(0), ..jointed(half_period, 100, second) };
        let delay = half_period + second;
        assert_eq!(Job::earliest().with_axis(0, axis).arrival_found(), Ok(delay + 1));
        let refusal = Job::arriving_at(delay).with_axis(0, axis).plan().expect_err("too soon");
        assert_eq!(refusal.printed_line(), "refused 8 place 0 axes 1 arrival 0");
    }
}

/// A head that moves at its start and a target that moves are met exactly.
#[test]
fn moving_ends_are_exact() {
    let start = RestPoint { position: -7, velocity: 3 };
    let target = Target::Moving(State { position: 20, velocity: -2, acceleration: 0, tick: 4 });
    let plan = Job::arriving_at(60).with_axis(0, Axis { start, target, ..jointed(5, 90, 8) }).plan().expect("a plan");
    assert_eq!(plan.cells()[..2], [256 * -7, 256 * 3]);
    assert_eq!(plan.cells()[180..], [256 * (20 - 2 * 56), 256 * -2, 0]);
}

#[test]
fn fifteen_comes_after_five_and_before_six() {
    let good = jointed(1, 100, 2);
    for second in [0, 257, u32::MAX] {
        assert_eq!(refusal_of([good, jointed(1, 100, second)]), Refusal::SecondHalfPeriod { axis: 4 });
        assert_eq!(refusal_of([jointed(0, 128, second), good]), Refusal::SecondHalfPeriod { axis: 1 });
        assert_eq!(refusal_of([jointed(1, 100, second), jointed(257, 100, 1)]), Refusal::Blend { axis: 4 });
        let too_fast = Axis { start: RestPoint { position: 0, velocity: 11 }, ..good };
        assert_eq!(refusal_of([too_fast, jointed(1, 100, second)]), Refusal::SecondHalfPeriod { axis: 4 });
    }
    let faults: Vec<_> = jointed(1, 100, 257).out_of_range().collect();
    assert_eq!((faults.len(), faults[0].refusal_number(), faults[0].range.clone()), (1, 15, 1..=256));
}

#[test]
fn sixteen_comes_after_six_and_before_thirteen() {
    let good = jointed(1, 100, 2);
    for axis in [jointed(1, 100, 2), jointed(0, 128, 2), jointed(7, 128, 256)] {
        let follows = Axis { target: accelerating(1), ..axis };
        assert_eq!(refusal_of([good, follows]), Refusal::Acceleration { axis: 4 });
        let too_fast = Axis { start: RestPoint { position: 0, velocity: 11 }, ..good };
        assert_eq!(refusal_of([follows, too_fast]), Refusal::StartOrTarget { axis: 4 });
        let job = Job::earliest().with_axis(0, follows).with_windows(0, &[]);
        assert_eq!(job.plan(), Err(Refusal::Acceleration { axis: 0 }));
        let single = Axis { second_half_period: None, speed_limit: 100, acceleration_limit: 9, ..follows };
        assert!(Job::earliest().with_axis(0, single).plan().is_ok());
        let moving = Axis { target: accelerating(0), ..axis };
        assert!(Job::earliest().with_axis(0, moving).plan().is_ok());
    }
}

/// Windows are heeded as on any axis: the least arrival of 5 does not fit, and 7 does.
#[test]
fn windows_are_heeded() {
    let windows = [Window { opening: 0, closing: 6 }, Window { opening: 7, closing: 20 }];
    let job = Job::earliest().with_axis(0, jointed(1, 100, 2)).with_windows(2, &windows);
    assert_eq!(job.arrival_found(), Ok(7));
}

/// The word of kind 13 stands after that of kind 8, and before one of kind 14.
#[test]
fn words_have_kind_13_after_kind_8() {
    let job = Job::earliest().with_axis(0, jointed(1, 100, 2));
    let words = [
        0x1000_0001,
        0x2000_0000,
        0x3000_0000,
        0x4000_0000,
        0x5000_000A,
        0x6000_0001,
        0x7000_0001,
        0x8000_0064,
        0xD000_0002,
        0x9000_0001,
        0xA000_0000,
        0xF000_0000,
    ];
    assert_eq!(job.to_words().as_deref(), Ok(&words[..]));
    assert_eq!(Job::from_words(&words), Ok(job));
    let (mut typed, mut by_words) = ([0; 18], [0; 18]);
    assert_eq!(plan(&job, &mut typed), plan_words(&words, &mut by_words));
    assert_eq!(typed, by_words);

    let far = Job::earliest().with_axis(0, Axis { target: Target::still(1 << 30), ..jointed(1, 100, 2) });
    let kinds: Vec<u32> = far.to_words().expect("words").iter().map(|word| word >> 28).collect();
    assert_eq!(kinds, [1, 2, 3, 4, 5, 6, 7, 8, 13, 14, 9, 10, 15]);
}

/// A second half period of 0 is no absence: it is read as 0, and refused with 15.
#[test]
fn a_payload_of_0_is_refused_with_15() {
    for (payload, number) in [(0, 15), (1, 8), (256, 8), (257, 15), (0x0FFF_FFFF, 15)] {
        let mut words = CASE_C_WORDS.to_vec();
        words[1] = 0x2000_0001; // asked for tick 1, which no second half period allows
        words.insert(8, 0xD000_0000 | payload);
        let job = Job::from_words(&words).expect("words of a job");
        assert_eq!(job.axes[0].and_then(|axis| axis.second_half_period), Some(payload));
        let refusal = plan_words(&words, &mut [0; 15]).expect_err("a refusal");
        assert_eq!(refusal.number(), number, "{payload}");
        assert_eq!(job.plan(), Err(refusal));
    }
}

#[test]
fn kind_13_elsewhere_is_refused_with_2() {
    for index in (0..=CASE_C_WORDS.len()).filter(|&index| index != 8) {
        let mut words = CASE_C_WORDS.to_vec();
        words.insert(index, 0xD000_0002);
        let refusal = if index == 0 { Refusal::Mask } else { Refusal::Words { index } };
        assert_eq!(Job::from_words(&words).map_err(|error| error.refusal()), Err(refusal));
        assert_eq!(plan_words(&words, &mut [0; 15]).map(|_| ()), Err(refusal));
    }
    let twice = [&CASE_C_WORDS[..8], &[0xD000_0002, 0xD000_0003], &CASE_C_WORDS[8..]].concat();
    assert_eq!(
        Job::from_words(&twice).expect_err("a second word of kind 13").to_string(),
        "word 9: expected kind 9 (target position) or kind 14 (high part of a position), found kind 13 (D0000003)"
    );
    let after_14 = [&CASE_C_WORDS[..8], &[0xE000_0001, 0xD000_0002], &CASE_C_WORDS[8..]].concat();
    assert_eq!(plan_words(&after_14, &mut [0; 15]).map(|_| ()), Err(Refusal::Words { index: 9 }));
}

/// The longest job: six axes with long positions, second half periods and moving targets.
#[test]
fn the_longest_job_has_81_words() {
    let mut job = Job::arriving_at(40);
    for number in 0..6 {
        let position = (number as i64 - 3) << 32 | 1 << 31;
        let start = RestPoint { position, velocity: 0 };
        let target = Target::Moving(State { position: position + 3, velocity: 1, acceleration: 0, tick: 30 });
        let axis = Axis { start, target, ..jointed(number as u32, 100, 1 + number as u32) };
        job = job.with_axis(number, axis);
    }
    let words = job.to_words().expect("words");
    assert_eq!((words.len(), 4 * words.len()), (81, 324));
    assert_eq!(Job::from_words(&words), Ok(job));
    let mut table = vec![0; job.enough_cells()];
    assert_eq!(plan_words(&words, &mut table).map(|accepted| accepted.arrival()), Ok(40));
}

/// A tour's axis may have a second half period: each leg then takes that much longer than
/// the leg of its planned motion.
#[test]
fn tours_take_a_second_half_period() {
    let limits = TourAxis { second_half_period: Some(1), ..FIELD_TOUR_AXIS };
    let stops = [(4, 2), (5, 3)].map(|(position, dwell)| Stop { positions: [position, 0, 0, 0, 0, 0], dwell });
    let tour = Tour::new().with_axis(0, limits);
    assert_eq!(tour.schedule(&stops), Ok(Schedule { arrivals: vec![5, 10], total: 13 }));
    let leg = tour.leg(&stops, 1).expect("a leg");
    assert_eq!(leg.axes[0].and_then(|axis| axis.second_half_period), Some(1));
    assert_eq!(leg.arrival_found(), Ok(3));

    let tour = Tour::new().with_axis(2, TourAxis { second_half_period: Some(257), ..limits });
    let refusal = TourRefusal::Leg { stop: 0, refusal: Refusal::SecondHalfPeriod { axis: 2 } };
    assert_eq!(tour.schedule(&stops), Err(refusal));
    assert_eq!(refusal.printed_line(), "refused 15 place 0 axes 0 arrival 0");
    assert_eq!(
        refusal.to_string(),
        "the leg to stop 0 is refused with 15: on axis 2 `second_half_period` is outside 1 to 256"
    );
}
