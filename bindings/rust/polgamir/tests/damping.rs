//! Damping as measured. The expected weights are those of request 2.3 and its readings, and of
//! exact whole-number arithmetic.

mod common;

use common::{field_axis, Random};
use polgamir::{Axis, Damping, Job, NoWords, Refusal, Stop, Target, Tour, TourAxis, TourRefusal, WordKind};

/// The weight of two peaks.
fn of_peaks(first: f32, second: f32) -> Option<u32> {
    Damping::Peaks { first, second }.weight()
}

#[test]
fn weights_are_those_of_the_request() {
    assert_eq!([1.0, 0.5, 0.999].map(|ratio| Damping::Ratio(ratio).weight()), [Some(128), Some(85), Some(127)]);
    assert_eq!(Damping::Ratio(0.007_874_016).weight(), Some(2));
    assert_eq!(f64::from(0.007_874_016_f32), 0.007874015718698502);
    assert_eq!([of_peaks(97.0, 31.0), of_peaks(155.0, 101.0), of_peaks(201.0, 55.0)], [Some(61), Some(100), Some(55)]);
    assert_eq!(of_peaks(474.579_47, 211.817_95), Some(78));
    assert_eq!((f64::from(474.579_47_f32), f64::from(211.817_95_f32)), (474.5794677734375, 211.8179473876953));
    assert_eq!(of_peaks(1e-45, 1e-45), Some(128));
    assert_eq!([f32::MIN_POSITIVE / 2.0, 1e-45].map(|ratio| Damping::Ratio(ratio).weight()), [Some(1), Some(1)]);
    assert_eq!([0, 1, 128, 129, u32::MAX].map(|b| Damping::Weight(b).weight()), [0, 1, 128, 129, u32::MAX].map(Some));
}

#[test]
fn what_is_no_damping_has_no_weight() {
    for ratio in [0.0, -0.0, -0.5, 1.000_000_1, 2.0, f32::INFINITY, f32::NEG_INFINITY, f32::NAN] {
        assert_eq!(Damping::Ratio(ratio).weight(), None, "{ratio}");
    }
    for (first, second) in [
        (1e38, 1e-38),
        (-2.0, -1.0),
        (0.0, 0.0),
        (0.0, 1.0),
        (-0.0, 1.0),
        (1.0, 0.0),
        (1.0, 1.5),
        (f32::NAN, 1.0),
        (1.0, f32::NAN),
        (f32::INFINITY, 1.0),
        (f32::INFINITY, f32::INFINITY),
    ] {
        assert_eq!(of_peaks(first, second), None, "{first} {second}");
    }
}

/// The weight of a ratio from 2⁻¹⁰ to 1, in whole numbers: a product rounds to a float that
/// is at least B exactly where it is not below the middle between B and the float before
/// it, for B's significand is even.
fn exact_weight(ratio: f32) -> u32 {
    let (significand, exponent) = (ratio.to_bits() & 0x7F_FFFF | 0x80_0000, ratio.to_bits() >> 23);
    // In units of 2⁻⁶⁰: the ratio is its significand × 2^(exponent − 150).
    let ratio = i128::from(significand) << (exponent + 60 - 150);
    let meets = |weight: &u32| {
        let binade = (*weight - 1).max(1).ilog2();
        let half_a_step = if *weight == 1 { 1_i128 << (60 - 25) } else { 1_i128 << (60 + binade - 24) };
        ratio * i128::from(256 - weight) >= (i128::from(*weight) << 60) - half_a_step
    };
    (1..=128).rev().find(meets).unwrap_or(1)
}

/// The least ratio of each weight from 2 up, and the float below it.
fn edges() -> Vec<(u32, f32, f32)> {
    let edge = |weight: u32| {
        let (mut below, mut from) = (2.0_f32.powi(-10).to_bits(), 1.0_f32.to_bits());
        while from - below > 1 {
            let middle = below + (from - below) / 2;
            match exact_weight(f32::from_bits(middle)) >= weight {
                true => from = middle,
                false => below = middle,
            }
        }
        (weight, f32::from_bits(below), f32::from_bits(from))
    };
    (2..=128).map(edge).collect()
}

#[test]
fn both_sides_of_every_edge_have_their_weights() {
    for (weight, below, from) in edges() {
        assert_eq!(Damping::Ratio(below).weight(), Some(weight - 1), "below {weight}");
        assert_eq!(Damping::Ratio(from).weight(), Some(weight), "from {weight}");
        let near = f64::from(weight) / f64::from(256 - weight);
        assert!((f64::from(from) / near - 1.0).abs() < 1e-6, "{weight}");
    }
}

#[test]
fn random_ratios_have_their_exact_weights() {
    let mut random = Random(0x0DA3_1713_0000_0007);
    for _ in 0..20000 {
        let ratio = f32::from_bits(random.between(0x3A80_0000, 0x3F80_0000) as u32);
        assert_eq!(Damping::Ratio(ratio).weight(), Some(exact_weight(ratio)), "{ratio}");
    }
}

/// A job with a swaying pole of a damping.
fn job_with(damping: Damping) -> Job {
    Job::earliest().with_axis(2, Axis { half_period: 3, damping, ..field_axis(Target::still(40)) })
}

/// The planner's table is that of the same job with the weight entered, at both sides of every
/// edge.
#[test]
fn the_planner_keeps_the_same_rule() {
    for (_, below, from) in edges() {
        for ratio in [below, from] {
            for damping in [Damping::Ratio(ratio), Damping::Peaks { first: 1.0, second: ratio }] {
                let weight = damping.weight().expect("a weight");
                assert_eq!(job_with(damping).plan(), job_with(Damping::Weight(weight)).plan());
            }
        }
    }
    assert_ne!(job_with(Damping::Weight(100)).plan(), job_with(Damping::Weight(101)).plan());
    for (first, second) in [(97.0, 31.0), (155.0, 101.0), (201.0, 55.0), (474.579_47, 211.817_95), (1e-45, 1e-45)] {
        let damping = Damping::Peaks { first, second };
        let weight = damping.weight().expect("a weight");
        assert_eq!(job_with(damping).plan(), job_with(Damping::Weight(weight)).plan());
    }
}

#[test]
fn refusal_12_comes_after_4_and_before_5() {
    let none = Damping::Ratio(0.0);
    let axis = field_axis(Target::still(1));
    let damped = Axis { damping: none, ..axis };
    let planned = |axes: [Axis; 2]| Job::earliest().with_axis(0, axes[0]).with_axis(1, axes[1]).plan().unwrap_err();
    assert_eq!(Job::earliest().with_axis(0, damped).plan(), Err(Refusal::Damping { axis: 0 }));
    assert_eq!(planned([Axis { half_period: 257, ..axis }, damped]), Refusal::Damping { axis: 1 });
    assert_eq!(planned([damped, Axis { speed_limit: 0, ..axis }]), Refusal::Limits { axis: 1 });
    assert_eq!(planned([damped, Axis { damping: Damping::Ratio(f32::NAN), ..axis }]), Refusal::Damping { axis: 0 });
    let refusal = Refusal::Damping { axis: 1 };
    assert_eq!((refusal.number(), refusal.place(), refusal.mask().0, refusal.arrival()), (12, 1, 0, 0));

    let pan = TourAxis {
        start: 0,
        speed_limit: 10,
        acceleration_limit: 1,
        half_period: 0,
        damping: none,
        second_half_period: None,
    };
    let stops = [Stop::default()];
    let refusal = Tour::new().with_axis(4, pan).schedule(&stops).expect_err("no damping");
    assert_eq!(refusal, TourRefusal::Leg { stop: 0, refusal: Refusal::Damping { axis: 4 } });
    assert_eq!(refusal.printed_line(), "refused 12 place 0 axes 0 arrival 0");
}

/// A tour's legs have the damping of its axes.
#[test]
fn tours_have_the_weight_too() {
    let stops = [4, 90, 0].map(|pan| Stop { positions: [0, 0, 0, pan, 0, 0], dwell: 1 });
    let schedule = |damping: Damping| {
        let axis = TourAxis {
            start: 0,
            speed_limit: 10,
            acceleration_limit: 1,
            half_period: 9,
            damping,
            second_half_period: None,
        };
        let tour = Tour::new().with_axis(3, axis);
        let tables = (0..3).map(|leg| tour.leg(&stops, leg).expect("a leg").plan().expect("a table"));
        (tour.schedule(&stops).expect("a tour"), tables.collect::<Vec<_>>())
    };
    let by_hand = schedule(Damping::Weight(61));
    assert_eq!(schedule(Damping::Peaks { first: 97.0, second: 31.0 }), by_hand);
    assert_eq!(schedule(Damping::Ratio(31.0 / 97.0)), by_hand);
    assert_ne!(schedule(Damping::Ratio(0.5)), by_hand);
}

/// Words take the weight, and their table is the same.
#[test]
fn words_take_the_weight() {
    let damping = Damping::Peaks { first: 97.0, second: 31.0 };
    let words = job_with(damping).to_words().expect("a weight");
    assert_eq!(words[7], 0x8000_0000 + 61);
    assert_eq!(Job::from_words(&words), Ok(job_with(Damping::Weight(61))));
    let mut table = vec![0; job_with(damping).enough_cells()];
    let of_words = polgamir::plan_words(&words, &mut table).expect("a table").cells().to_vec();
    assert_eq!(job_with(damping).plan().expect("a plan").into_cells(), of_words);

    let none = job_with(Damping::Ratio(1.5));
    assert_eq!(none.to_words(), Err(NoWords::Damping { axis: 2 }));
    assert_eq!(NoWords::Damping { axis: 2 }.to_string(), "axis 2: the damping as measured has no weight");
    let entries: Vec<WordKind> = none.axes[2].expect("axis 2").entries().map(|(kind, _)| kind).collect();
    assert!(entries.len() == 7 && !entries.contains(&WordKind::SecondWeight));
}
