//! Tours: arrivals, totals, legs and refusals. The expected values are those of
//! request 2.1 and of its readings.

mod common;

use common::{field_axis, Random, FIELD_TOUR_AXIS};
use polgamir::{AxisMask, Damping, Job, Refusal, Schedule, Stop, Target, Tour, TourAxis, TourRefusal, MOST_STOPS};

/// A tour of one axis.
fn tour_of(axis: TourAxis) -> Tour {
    Tour::new().with_axis(0, axis)
}

/// Stops of axis 0.
fn stops_of(stops: &[(i64, u32)]) -> Vec<Stop> {
    stops.iter().map(|&(position, dwell)| Stop { positions: [position, 0, 0, 0, 0, 0], dwell }).collect()
}

#[test]
fn arrivals_count_from_the_tours_start_and_later_entries_stay() {
    let mut arrivals = [7, 7, 7];
    let total = tour_of(FIELD_TOUR_AXIS).plan(&stops_of(&[(4, 3), (0, 5)]), &mut arrivals);
    assert_eq!((total, arrivals), (Ok(16), [4, 11, 7]));
    let schedule = tour_of(FIELD_TOUR_AXIS).schedule(&stops_of(&[(4, 5), (4, 0), (0, 7)]));
    assert_eq!(schedule, Ok(Schedule { arrivals: vec![4, 10, 14], total: 21 }));
}

#[test]
fn a_leg_of_no_way_takes_the_half_period_and_a_tick() {
    for half_period in [0, 1, 9, 256] {
        let tour = tour_of(TourAxis { half_period, ..FIELD_TOUR_AXIS });
        let schedule = tour.schedule(&stops_of(&[(0, 0)])).expect("a tour");
        assert_eq!(schedule, Schedule { arrivals: vec![half_period + 1], total: half_period + 1 });
    }
}

#[test]
fn no_stops_take_no_time() {
    for tour in [Tour::new(), tour_of(TourAxis { speed_limit: 0, ..FIELD_TOUR_AXIS })] {
        let mut arrivals = [7];
        assert_eq!((tour.plan(&[], &mut arrivals), arrivals), (Ok(0), [7]));
        assert_eq!(tour.plan(&[], &mut []), Ok(0));
        assert_eq!(tour.schedule(&[]), Ok(Schedule::default()));
    }
}

/// What a tour of one axis is refused with; nothing is written.
fn refused(tour: Tour, stops: &[(i64, u32)], entries: usize) -> TourRefusal {
    let mut arrivals = vec![7; entries];
    let refusal = tour.plan(&stops_of(stops), &mut arrivals).expect_err("a refusal");
    assert!(arrivals.iter().all(|&arrival| arrival == 7));
    refusal
}

#[test]
fn stops_are_checked_before_the_legs() {
    let many = vec![(4, 0); MOST_STOPS + 1];
    assert_eq!(refused(tour_of(FIELD_TOUR_AXIS), &many, 65), TourRefusal::Stops { stop: 64 });
    assert!(tour_of(FIELD_TOUR_AXIS).schedule(&stops_of(&many[..64])).is_ok());
    let long = [(4, 4096), (0, 4097), (4, 4097)];
    assert_eq!(refused(tour_of(FIELD_TOUR_AXIS), &long, 3), TourRefusal::Stops { stop: 1 });
    assert!(tour_of(FIELD_TOUR_AXIS).schedule(&stops_of(&long[..1])).is_ok());
    assert_eq!(refused(Tour::new(), &[(4, 4097)], 1), TourRefusal::Stops { stop: 0 });
}

#[test]
fn the_first_refused_leg_names_its_stop() {
    let leg = |stop, refusal| TourRefusal::Leg { stop, refusal };
    assert_eq!(refused(Tour::new(), &[(4, 0)], 1), leg(0, Refusal::Mask));
    let slow = tour_of(TourAxis { speed_limit: 1, ..FIELD_TOUR_AXIS });
    let no_arrival = Refusal::NoCommonArrival { axes: AxisMask(1) };
    assert_eq!(refused(slow, &[(100_000_000, 0), (1 << 40, 0)], 2), leg(0, no_arrival));
    assert_eq!(refused(slow, &[(4, 0), (100_000_000, 0)], 1), leg(1, no_arrival));
    assert_eq!(refused(slow, &[(4, 0), (0, 0), (1 << 40, 0)], 3), leg(2, Refusal::StartOrTarget { axis: 0 }));
    let unlimited = Tour::new().with_axis(2, TourAxis { speed_limit: 0, ..FIELD_TOUR_AXIS });
    assert_eq!(refused(unlimited, &[(0, 0)], 1), leg(0, Refusal::Limits { axis: 2 }));
    let heavy = tour_of(FIELD_TOUR_AXIS).with_axis(3, TourAxis { damping: Damping::Weight(129), ..FIELD_TOUR_AXIS });
    assert_eq!(refused(heavy, &[(0, 0)], 1), leg(0, Refusal::Blend { axis: 3 }));
}

#[test]
fn a_short_list_is_checked_after_the_legs() {
    let short = refused(tour_of(FIELD_TOUR_AXIS), &[(4, 3), (0, 5)], 1);
    assert_eq!(short, TourRefusal::ListTooShort { stops: 2 });
}

#[test]
fn refusals_have_lines_and_sentences() {
    let refusal = Refusal::NoCommonArrival { axes: AxisMask(2) };
    for (refusal, line, sentence) in [
        (
            TourRefusal::Stops { stop: 64 },
            "refused 11 place 64 axes 0 arrival 0",
            "refused with 11: there are more than 64 stops",
        ),
        (
            TourRefusal::Stops { stop: 3 },
            "refused 11 place 3 axes 0 arrival 0",
            "refused with 11: the `dwell` of stop 3 is above 4096",
        ),
        (
            TourRefusal::Leg { stop: 1, refusal },
            "refused 9 place 1 axes 2 arrival 0",
            "the leg to stop 1 is refused with 9: axis 1 can arrive at no tick from 1 to 4096",
        ),
        (
            TourRefusal::ListTooShort { stops: 5 },
            "refused 10 place 5 axes 0 arrival 0",
            "refused with 10: there are 5 stops, and the lent list of arrivals has fewer entries",
        ),
    ] {
        assert_eq!(refusal.printed_line(), line);
        assert_eq!(refusal.to_string(), sentence);
    }
}

#[test]
fn a_leg_is_the_job_from_the_stop_before() {
    let tour = tour_of(TourAxis { start: -3, ..FIELD_TOUR_AXIS });
    let stops = stops_of(&[(4, 3), (0, 5)]);
    let from = |start: i64, target: i64| {
        let mut axis = field_axis(Target::still(target));
        axis.start.position = start;
        Some(Job::earliest().with_axis(0, axis))
    };
    assert_eq!(tour.leg(&stops, 0), from(-3, 4));
    assert_eq!(tour.leg(&stops, 1), from(4, 0));
    assert_eq!((tour.leg(&stops, 2), tour.leg(&[], 0)), (None, None));
}

/// A random tour of one to six axes.
fn random_tour(random: &mut Random) -> (Tour, Vec<Stop>) {
    let mask = random.between(1, 63);
    let mut tour = Tour::new();
    for number in (0..6).filter(|number| mask >> number & 1 == 1) {
        let axis = random.plannable_axis();
        tour.axes[number] = Some(TourAxis {
            start: axis.start.position,
            speed_limit: axis.speed_limit,
            acceleration_limit: axis.acceleration_limit,
            half_period: axis.half_period,
            damping: axis.damping,
            second_half_period: axis.second_half_period,
        });
    }
    let stop = |random: &mut Random| Stop {
        positions: std::array::from_fn(|_| random.between(-3000, 3000)),
        dwell: random.small(4096) as u32,
    };
    let stops = (0..random.between(1, 5)).map(|_| stop(random)).collect();
    (tour, stops)
}

/// Each arrival is the departure before it and the arrival that the leg's own job gets, and
/// the total is the last departure.
#[test]
fn legs_add_up() {
    let mut random = Random(0x7042_0000_0000_0021);
    let mut accepted = 0;
    for _ in 0..150 {
        let (tour, stops) = random_tour(&mut random);
        let mut departure = 0;
        let mut expected = Ok(Schedule::default());
        for (index, stop) in stops.iter().enumerate() {
            let job = tour.leg(&stops, index).expect("a leg");
            match (job.arrival_found(), &mut expected) {
                (Ok(arrival), Ok(schedule)) => {
                    schedule.arrivals.push(departure + arrival);
                    departure += arrival + stop.dwell;
                    schedule.total = departure;
                }
                (Err(refusal), Ok(_)) => expected = Err(TourRefusal::Leg { stop: index, refusal }),
                _ => {}
            }
        }
        accepted += usize::from(expected.is_ok());
        assert_eq!(tour.schedule(&stops), expected, "{tour:?} {stops:?}");
    }
    assert!(accepted > 40, "{accepted}");
}
