//! The bound on the sway that a table leaves: numbers worked out by hand, and poles and lists that
//! are swung by the table itself.

mod common;

use common::{field_axis, Random};
use polgamir::{Axis, Damping, Fraction, Job, NoBound, State, SwayLeft, Target};

const ZERO: Fraction = Fraction::ZERO;

/// The field cases' axis on a pole.
fn on_pole(half_period: u32, weight: u32, second_half_period: Option<u32>) -> Axis {
    Axis { half_period, damping: Damping::Weight(weight), second_half_period, ..field_axis(Target::still(4)) }
}

fn accelerating(acceleration: i64, axis: Axis) -> Axis {
    let target = Target::Moving(State { position: 0, velocity: 0, acceleration, tick: 0 });
    Axis { target, ..axis }
}

/// 4μ + |α| + 2 on each grid, with M = 1.
#[test]
fn changes_are_counted_on_the_grid() {
    assert_eq!(on_pole(0, 128, None).acceleration_changes(), Ok(4 * 256 + 2));
    assert_eq!(on_pole(9, 100, None).acceleration_changes(), Ok(4 * 256 + 2));
    assert_eq!(on_pole(9, 100, Some(3)).acceleration_changes(), Ok(4 * 512 + 2));
    assert_eq!(accelerating(-1, on_pole(9, 128, None)).acceleration_changes(), Ok(5 * 256 + 2));
    assert_eq!(accelerating(-1, on_pole(9, 100, None)).acceleration_changes(), Ok(5 * 65_536 + 2));
}

/// 1026 E / 256 and, as rounded, 4 G more; with a second sway 2050 E / 1024.
#[test]
fn the_sway_left_is_rounded_upward() {
    let left = |axis: Axis, misfit, size| axis.sway_left(4, misfit, size).unwrap();
    assert_eq!(left(on_pole(0, 128, None), 768, 3), SwayLeft { exact: 3078, rounded: 3090 });
    assert_eq!(left(on_pole(0, 128, None), 1, 1), SwayLeft { exact: 5, rounded: 9 });
    assert_eq!(left(on_pole(0, 128, None), 0, 5), SwayLeft { exact: 0, rounded: 20 });
    assert_eq!(left(on_pole(2, 100, Some(3)), 1024, 1), SwayLeft { exact: 2050, rounded: 2054 });
    let most = left(on_pole(0, 128, None), u64::MAX, u64::MAX).rounded;
    assert_eq!(most, (u128::from(u64::MAX) * (1026 + 1024)).div_ceil(256));
}

/// 2|b − B|G + A|p − h|D: a ratio of 2/3 in place of 1 has the weight 102.4 in place of 128.
#[test]
fn misfits_are_those_of_the_errors() {
    let bound = |axis: Axis, half_period, ratio| axis.misfit_bound(half_period, ratio, 100, 31).unwrap();
    let (one, third) = (Fraction::from(1), Fraction::new(-1, 3));
    assert_eq!(bound(on_pole(10, 128, None), ZERO, ZERO), 0);
    assert_eq!(bound(on_pole(10, 128, None), one, ZERO), 128 * 31);
    assert_eq!(bound(on_pole(10, 128, None), Fraction::new(-1, 1), ZERO), 128 * 31);
    assert_eq!(bound(on_pole(10, 128, None), ZERO, third), 5120);
    assert_eq!(bound(on_pole(10, 128, None), one, third), 128 * 31 + 5120);
    assert_eq!(bound(on_pole(10, 128, Some(7)), one, third), 2 * (128 * 31 + 5120));
    assert_eq!(bound(on_pole(10, 100, None), Fraction::new(1, 7), ZERO), (156 * 31_u64).div_ceil(7));
    assert_eq!(bound(on_pole(10, 128, None), Fraction::from(400), ZERO), 25_600);
    assert_eq!(bound(on_pole(0, 128, Some(7)), one, third), 2 * (128 * 31 + 5120));
}

#[test]
fn no_bound_without_a_pole() {
    let pole = on_pole(10, 100, None);
    let bound = |half_period, ratio| pole.sway_bound(60, half_period, ratio).map(|left| left.exact);
    assert_eq!(bound(Fraction::new(-10, 1), ZERO), Err(NoBound::HalfPeriod));
    assert_eq!(bound(Fraction::new(503, 1), ZERO), Err(NoBound::HalfPeriod));
    assert_eq!(bound(Fraction::new(1, 0), ZERO), Err(NoBound::HalfPeriod));
    assert_eq!(bound(Fraction::new(1, 10_001), ZERO), Err(NoBound::HalfPeriod));
    assert_eq!(bound(ZERO, Fraction::new(9, 25)), Err(NoBound::Ratio)); // 100/156 + 0.36 is above 1
    assert_eq!(bound(ZERO, Fraction::new(-25, 39)), Err(NoBound::Ratio)); // 100/156 is 25/39
    assert_eq!(pole.sway_bound(0, ZERO, ZERO), Err(NoBound::Arrival));
    assert_eq!(pole.sway_bound(4097, ZERO, ZERO), Err(NoBound::Arrival));
    assert_eq!(pole.second_sway_bound(60, ZERO, ZERO), Err(NoBound::SecondSway));
    let wrong = Axis { acceleration_limit: 65_537, ..pole };
    assert_eq!(wrong.sway_bound(60, ZERO, ZERO), Err(NoBound::Axis));
    assert_eq!(Axis { damping: Damping::Ratio(1.5), ..pole }.sway_left(60, 1, 1), Err(NoBound::Axis));
}

/// The greatest numbers are worked out without an overflow.
#[test]
fn the_largest_numbers_fit() {
    for (weight, second) in [(1, None), (127, None), (1, Some(256)), (128, Some(256))] {
        let axis = Axis { acceleration_limit: 65_536, ..on_pole(256, weight, second) };
        let axis = if second.is_none() { accelerating(-65_536, axis) } else { axis };
        for late in [-2_559_999, 1, 2_559_999] {
            for more in [-19, 1, 9_959] {
                let error = Fraction::new(late, 10_000);
                let ratio = Fraction::new(more, 10_000);
                for left in [axis.sway_bound(4096, error, ratio), axis.second_sway_bound(4096, error, ratio)] {
                    let Ok(SwayLeft { exact, rounded }) = left else { continue };
                    assert!(exact <= rounded && rounded < 1 << 60);
                }
            }
        }
        assert!(axis.sway_bound(4096, Fraction::new(2_559_999, 10_000), Fraction::new(-19, 10_000)).is_ok());
    }
}

/// A pole as it swings in truth.
struct Pole {
    swing: f64,
    decay: f64,
}

impl Pole {
    fn new(half_period: f64, ratio: f64) -> Pole {
        Pole { swing: std::f64::consts::PI / half_period, decay: -ratio.ln() / half_period }
    }

    /// How far its top is from where it comes to rest, at most, at times from the arrival on: the
    /// sum of what each change of acceleration c leaves at a time t after it, c/s e^(−dt) (cos wt +
    /// d/w sin wt), with s = w² + d².
    fn left(&self, accelerations: &[i64]) -> f64 {
        let (w, d) = (self.swing, self.decay);
        let answer = |t: f64| (-d * t).exp() * ((w * t).cos() + d / w * (w * t).sin()) / (w * w + d * d);
        let at = |time: f64| {
            let mut before = 0;
            let mut sum = 0.0;
            for (tick, &acceleration) in accelerations.iter().enumerate() {
                sum += (acceleration - before) as f64 * answer(time - tick as f64);
                before = acceleration;
            }
            sum.abs()
        };
        let arrival = (accelerations.len() - 1) as f64;
        (0..160).map(|point| at(arrival + f64::from(point) * std::f64::consts::PI / w / 80.0)).fold(0.0, f64::max)
    }
}

/// The acceleration cells of axis 0 of a job.
fn accelerations(job: &Job) -> Option<Vec<i64>> {
    let plan = job.plan().ok()?;
    Some(plan.rows().filter_map(|row| row.axis(0)).map(|motion| motion.acceleration).collect())
}

fn quotient(fraction: Fraction) -> f64 {
    f64::from(fraction.numerator) / f64::from(fraction.denominator)
}

/// No pole of random errors is left swinging by more than the bound, under the tables of random
/// jobs.
#[test]
fn no_pole_exceeds_the_bound() {
    let mut random = Random(34);
    let (mut first, mut second) = (0, 0);
    for _ in 0..1500 {
        let axis = random.plannable_axis();
        let Some(rows) = accelerations(&Job::earliest().with_axis(0, axis)) else { continue };
        let arrival = rows.len() as u32 - 1;
        let late = Fraction::new(random.between(-300, 300) as i32, random.between(1, 100) as u32);
        let more = Fraction::new(random.between(-400, 400) as i32, random.between(1, 1000) as u32);
        let weight = f64::from(axis.damping.weight().unwrap());
        if let Ok(left) = axis.sway_bound(arrival, late, more) {
            let pole =
                Pole::new(f64::from(axis.half_period) + quotient(late), weight / (256.0 - weight) + quotient(more));
            assert!(pole.left(&rows) <= left.rounded as f64, "{axis:?} {late:?} {more:?} {left:?}");
            first += 1;
        }
        if let Ok(left) = axis.second_sway_bound(arrival, late, more) {
            let half_period = f64::from(axis.second_half_period.unwrap());
            let pole = Pole::new(half_period + quotient(late), 1.0 + quotient(more));
            assert!(pole.left(&rows) <= left.rounded as f64, "{axis:?} {late:?} {more:?} {left:?}");
            second += 1;
        }
    }
    assert!(first > 300 && second > 50, "{first} {second}");
}

/// Ramps and a level part of odd multiples of the true half period: every change falls in phase,
/// and the bound is nearly met. So no bound is of a higher order in the error.
#[test]
fn a_leg_in_phase_nearly_meets_the_bound() {
    for (half_period, entered) in [(10, 9), (10, 11), (40, 39), (40, 41), (40, 42)] {
        let axis = Axis {
            acceleration_limit: 100,
            speed_limit: 100 * half_period,
            target: Target::still(i64::from(300 * half_period * half_period)),
            ..on_pole(entered, 128, None)
        };
        let rows = accelerations(&Job::earliest().with_axis(0, axis)).expect("a plan");
        assert_eq!(rows.len() as u32 - 1, 4 * half_period + entered);
        let late = half_period as i32 - entered as i32;
        let bound = axis.sway_bound(rows.len() as u32 - 1, Fraction::from(late), ZERO).unwrap();
        let left = Pole::new(half_period.into(), 1.0).left(&rows);
        assert!(left <= bound.exact as f64 && left > 0.98 * bound.exact as f64, "{left} {bound:?}");
    }
}

/// The two legs that docs/METHOD.md, 5.5, tells in numbers: what is left before
/// rounding and its bounds, in units.
#[test]
fn the_methods_legs_leave_what_it_says() {
    let told = |axis: Axis, asked: u32, half_period: f64, late: Fraction| {
        let rows = accelerations(&Job::arriving_at(asked).with_axis(0, axis)).expect("a plan");
        let bound = axis.sway_bound(rows.len() as u32 - 1, late, ZERO).unwrap();
        let units = [Pole::new(half_period, 1.0).left(&rows), bound.exact as f64, bound.rounded as f64];
        (rows.len() - 1, units.map(|fine| fine / 256.0))
    };
    let in_phase = Axis { acceleration_limit: 100, speed_limit: 1000, ..on_pole(9, 128, None) };
    let (arrival, [left, exact, _]) = told(Axis { target: Target::still(30_000), ..in_phase }, 0, 10.0, 1.into());
    assert_eq!((arrival, format!("{left:.0}"), format!("{exact:.1}")), (49, "634".into(), "636.7".into()));
    let other = Axis { target: Target::still(300), ..on_pole(10, 128, None) };
    let (arrival, [left, exact, rounded]) = told(other, 60, 10.5, Fraction::new(1, 2));
    assert_eq!(arrival, 60);
    assert_eq!([left, exact, rounded].map(|units| format!("{units:.2}")), ["0.44", "3.35", "5.97"]);
}

/// No list of random entries exceeds the bound, whatever it fits.
#[test]
fn no_list_exceeds_the_bound() {
    let mut random = Random(35);
    let mut tried = 0;
    for _ in 0..800 {
        let axis = random.plannable_axis();
        let Some(rows) = accelerations(&Job::earliest().with_axis(0, axis)) else { continue };
        let arrival = rows.len() - 1;
        let size = random.between(1, 1000);
        let list: Vec<i64> = (0..=arrival).map(|_| random.between(-size, size)).collect();
        let weight = i64::from(axis.damping.weight().unwrap());
        let h = axis.half_period as usize;
        let once = |i: usize| (256 - weight) * list[i + h] + weight * list[i];
        let misfits = match axis.second_half_period.map(|delay| delay as usize) {
            None => (0..=arrival - h).map(once).map(i64::abs).max(),
            Some(d) => (0..=arrival - h - d).map(|i| (once(i + d) + once(i)).abs()).max(),
        };
        let changes = rows.iter().scan(0, |before, &row| Some(row - std::mem::replace(before, row)));
        let sway: i64 = changes.enumerate().map(|(k, change)| change * list[arrival - k]).sum();
        let left = axis.sway_left(arrival as u32, misfits.unwrap() as u64, size as u64).unwrap();
        assert!(u128::from(sway.unsigned_abs()) <= left.rounded, "{axis:?} {sway} {left:?}");
        tried += 1;
    }
    assert!(tried > 300, "{tried}");
}
