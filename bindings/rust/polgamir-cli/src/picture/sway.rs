//! The sway of a pole, driven by the accelerations of a table.
//!
//! The pole is an oscillator that swings over in its half period and whose swing shrinks to its
//! ratio in that time, both as entered. One with a second half period swings at two rates: the
//! second is an oscillator of its own, which swings over in that time and does not shrink. Each
//! row's acceleration holds from its tick to the next, the last one's from the arrival on, and
//! pushes the pole the other way. A real pole's sway is in proportion to this one.

/// A pole, or one of its two rates: how fast it swings and how fast the swing dies away.
#[derive(Debug, Clone, Copy)]
pub struct Pole {
    /// Radians of swing in a tick.
    swing: f64,
    /// The rate at which the swing dies away in a tick.
    decay: f64,
    /// Points of a curve to a tick, so that a swing looks round.
    points_to_a_tick: u32,
}

/// A point of a curve: the tick, or what else goes across, and the value.
pub type Point = (f64, f64);

/// A pole's sway over time.
pub struct Sway {
    /// The sway in units at ticks from 0 on.
    pub curve: Vec<Point>,
    /// The greatest distance from where the pole comes to rest, from the arrival on.
    pub remaining: f64,
}

impl Pole {
    /// A pole that swings over in a half period of ticks, above 0, and whose swing shrinks to a
    /// ratio in that time, above 0 and at most 1.
    pub fn new(half_period: f64, shrinks_to: f64) -> Pole {
        Pole {
            swing: std::f64::consts::PI / half_period,
            decay: -shrinks_to.ln() / half_period,
            points_to_a_tick: (16.0 / half_period).ceil() as u32,
        }
    }

    /// The stiffness by the mass: what an acceleration is divided by to give the
    /// displacement at which the pole rests.
    fn stiffness(&self) -> f64 {
        self.swing * self.swing + self.decay * self.decay
    }

    /// The sway from tick 0 to a last tick, under the accelerations of rows 0
    /// to arrival in units per tick².
    pub fn sway(&self, accelerations: &[f64], last_tick: u32) -> Sway {
        let arrival = accelerations.len() - 1;
        let step = self.step(1.0 / f64::from(self.points_to_a_tick));
        let mut state = State::default();
        let mut curve = vec![(0.0, 0.0)];
        for tick in 0..last_tick as usize {
            for point in 0..self.points_to_a_tick {
                state = step.after(state, accelerations[tick.min(arrival)]);
                curve.push((tick as f64 + f64::from(point + 1) / f64::from(self.points_to_a_tick), state.displacement));
            }
        }
        Sway { curve, remaining: self.left(accelerations) }
    }

    /// The greatest distance from where the pole comes to rest, from the arrival on.
    pub fn left(&self, accelerations: &[f64]) -> f64 {
        let Some((last, before)) = accelerations.split_last() else {
            return 0.0;
        };
        let step = self.step(1.0);
        let state = before.iter().fold(State::default(), |state, &acceleration| step.after(state, acceleration));
        let rest = -last / self.stiffness();
        self.greatest(State { displacement: state.displacement - rest, ..state })
    }

    /// The greatest distance from rest of a free swing: at its beginning, or where it first turns
    /// back.
    fn greatest(&self, state: State) -> f64 {
        let slope = (self.decay * state.velocity + self.stiffness() * state.displacement) / self.swing;
        let turns_at = (state.velocity / slope).atan().rem_euclid(std::f64::consts::PI) / self.swing;
        let turned = self.step(turns_at).after(state, 0.0).displacement.abs();
        // A pole at rest does not turn back: 0 by 0 is no time.
        if turned.is_nan() {
            return state.displacement.abs();
        }
        turned.max(state.displacement.abs())
    }

    /// What a time under a constant acceleration does, by the oscillator's own solution.
    fn step(&self, time: f64) -> Step {
        let (sine, cosine) = (self.swing * time).sin_cos();
        let remains = (-self.decay * time).exp();
        let turned = remains * sine / self.swing;
        Step {
            kept: remains * cosine + self.decay * turned,
            gained: turned,
            slowed: -self.stiffness() * turned,
            carried: remains * cosine - self.decay * turned,
            stiffness: self.stiffness(),
        }
    }
}

/// Displacement of the pole's top and its velocity.
#[derive(Debug, Clone, Copy, Default)]
struct State {
    displacement: f64,
    velocity: f64,
}

/// What a time does to a swing around its rest: displacement and velocity after
/// it are linear in those before.
struct Step {
    /// Displacement of displacement.
    kept: f64,
    /// Displacement of velocity.
    gained: f64,
    /// Velocity of displacement.
    slowed: f64,
    /// Velocity of velocity.
    carried: f64,
    stiffness: f64,
}

impl Step {
    /// The state after the time, under a constant acceleration.
    fn after(&self, state: State, acceleration: f64) -> State {
        let rest = -acceleration / self.stiffness;
        let offset = state.displacement - rest;
        State {
            displacement: rest + self.kept * offset + self.gained * state.velocity,
            velocity: self.slowed * offset + self.carried * state.velocity,
        }
    }
}

#[cfg(test)]
mod tests {
    use super::*;
    use crate::picture::swing::{Entered, Swing};
    use crate::test_axis::unblended;
    use polgamir::{Axis, Damping};

    fn axis(half_period: u32, second_weight: u32, second_half_period: Option<u32>) -> Axis {
        let damping = Damping::Weight(second_weight);
        Axis { half_period, damping, second_half_period, ..unblended(1, 1, 0, 0) }
    }

    /// The rates of the pole under an axis, each with the name of its sway.
    fn rates(axis: &Axis) -> Vec<(&'static str, Pole)> {
        Swing::of(axis, Entered::default()).into_iter().map(|swing| (swing.name(), swing.pole())).collect()
    }

    /// The rate of a sway of the pole under an axis.
    fn rate(axis: &Axis, name: &str) -> Pole {
        rates(axis).into_iter().find(|&(sway, _)| sway == name).expect("a half period").1
    }

    fn pole(half_period: u32, second_weight: u32) -> Pole {
        rate(&axis(half_period, second_weight, None), "sway")
    }

    fn state(displacement: f64, velocity: f64) -> State {
        State { displacement, velocity }
    }

    /// A swing shrinks to B / (256 − B) and turns over in half a period.
    #[test]
    fn swings_turn_over_and_shrink() {
        for (half_period, second_weight) in [(1, 128), (7, 85), (40, 110), (256, 1)] {
            let pole = pole(half_period, second_weight);
            let ratio = f64::from(second_weight) / f64::from(256 - second_weight);
            let State { displacement, velocity } = pole.step(half_period.into()).after(state(1.0, 0.3), 0.0);
            assert!((displacement + ratio).abs() < 1e-12, "{displacement} {ratio}");
            assert!((velocity + 0.3 * ratio).abs() < 1e-12);
        }
    }

    /// The sway under rows, as the sum of the answers to each change of acceleration: a change by
    /// `c` at tick k displaces the pole at a later time t by −c/s (1 − e^(−d(t − k)) (cos w(t −
    /// k) + d/w sin w(t − k))), with s = w² + d².
    fn by_closed_form(pole: &Pole, accelerations: &[f64], time: f64) -> f64 {
        let (w, d) = (pole.swing, pole.decay);
        let mut before = 0.0;
        let mut sum = 0.0;
        for (tick, &acceleration) in accelerations.iter().enumerate() {
            let since = time - tick as f64;
            if since > 0.0 {
                let answer = 1.0 - (-d * since).exp() * ((w * since).cos() + d / w * (w * since).sin());
                sum -= (acceleration - before) / (w * w + d * d) * answer;
            }
            before = acceleration;
        }
        sum
    }

    /// Rows with no pattern, the same in every run.
    fn drawn_rows(count: u32, seed: u32) -> Vec<f64> {
        (0..count).map(|row| f64::from((row * row * 7919 + row * 104_729 + seed) % 2001) / 100.0 - 10.0).collect()
    }

    /// Step by step the sway is that of the closed form, at every point of the curve.
    #[test]
    fn the_sway_is_that_of_the_closed_form() {
        for (half_period, ratio) in [(1.0, 1.0), (3.7, 0.6), (12.0, 0.05), (30.3, 0.9), (256.0, 1.0)] {
            let (pole, rows) = (Pole::new(half_period, ratio), drawn_rows(60, half_period as u32));
            for (tick, sway) in pole.sway(&rows, 100).curve {
                let expected = by_closed_form(&pole, &rows, tick);
                assert!((sway - expected).abs() < 1e-6 * (1.0 + half_period * half_period), "{half_period} {tick}");
            }
        }
    }

    /// What is left is the greatest of the closed form from the arrival on, over a period in fine
    /// steps.
    #[test]
    fn what_is_left_is_that_of_the_closed_form() {
        for (half_period, ratio) in [(2.0, 1.0), (5.5, 0.7), (17.0, 0.95), (40.0, 0.3)] {
            let (pole, mut rows) = (Pole::new(half_period, ratio), drawn_rows(50, 11));
            for last in [0.0, 2.0] {
                rows[49] = last;
                let rest = -last / pole.stiffness();
                let from_rest = |point: i32| {
                    let time = 49.0 + 2.0 * half_period * f64::from(point) / 20_000.0;
                    (by_closed_form(&pole, &rows, time) - rest).abs()
                };
                let greatest = (0..20_000).map(from_rest).fold(0.0, f64::max);
                assert!((pole.left(&rows) - greatest).abs() < 1e-6 * greatest, "{half_period} {last}");
            }
        }
    }

    /// A push one way for T ticks and the other way for T leaves 4a/w² sin²(wT/2) on an undamped
    /// pole, which is 0 for a whole period.
    #[test]
    fn a_push_and_its_opposite_leave_what_the_formula_says() {
        for (half_period, ticks) in [(10.0, 7_u32), (6.25, 20), (8.0, 16), (33.0, 5)] {
            let pole = Pole::new(half_period, 1.0);
            let rows: Vec<f64> = (0..=2 * ticks).map(|row| if row < ticks { 3.0 } else { -3.0 }).collect();
            let rows = [&rows[..2 * ticks as usize], &[0.0]].concat();
            let sine = (pole.swing * f64::from(ticks) / 2.0).sin();
            let expected = 4.0 * 3.0 / (pole.swing * pole.swing) * sine * sine;
            assert!((pole.left(&rows) - expected).abs() < 1e-9 * (1.0 + half_period * half_period), "{half_period}");
        }
    }

    /// A pole that nothing moves stays upright.
    #[test]
    fn nothing_is_left_of_nothing() {
        assert_eq!(Pole::new(5.0, 0.8).left(&[0.0; 9]), 0.0);
        assert_eq!(Pole::new(5.0, 0.8).left(&[]), 0.0);
    }

    /// Two pushes half a period apart, weighted as the blend weights them, leave nothing.
    #[test]
    fn blended_pushes_cancel() {
        let pole = pole(5, 100);
        let mut accelerations = [0.0; 16];
        for (tick, push) in [(0, 1.0), (1, 0.5), (3, -1.5)] {
            accelerations[tick] += push * 156.0;
            accelerations[tick + 5] += push * 100.0;
        }
        assert!(pole.sway(&accelerations, 60).remaining < 1e-9);
        accelerations[4] += 1.0;
        assert!(pole.sway(&accelerations, 60).remaining > 0.1);
    }

    /// A pole has a rate for each of its half periods, the second one undamped.
    #[test]
    fn a_pole_swings_at_each_of_its_rates() {
        let names = |axis: Axis| rates(&axis).into_iter().map(|(name, _)| name).collect::<Vec<_>>();
        assert!(names(axis(0, 128, None)).is_empty());
        assert_eq!(names(axis(7, 85, None)), ["sway"]);
        assert_eq!(names(axis(0, 128, Some(3))), ["second sway"]);
        assert_eq!(names(axis(7, 85, Some(3))), ["sway", "second sway"]);
        let second = rate(&axis(7, 85, Some(3)), "second sway");
        let State { displacement, velocity } = second.step(3.0).after(state(1.0, 0.3), 0.0);
        assert!((displacement + 1.0).abs() < 1e-12 && (velocity + 0.3).abs() < 1e-12);
    }

    /// Pushes that are blended twice leave nothing at either rate; blended once, something at the
    /// other.
    #[test]
    fn pushes_blended_twice_cancel_at_both_rates() {
        let mut once = [0.0; 24];
        for (tick, push) in [(0, 1.0), (1, 0.5), (3, -1.5)] {
            once[tick] += push * 156.0;
            once[tick + 5] += push * 100.0;
        }
        let mut twice = once;
        for tick in (0..=15).rev() {
            twice[tick + 8] += once[tick];
        }
        let axis = axis(5, 100, Some(8));
        for (name, pole) in rates(&axis) {
            assert!(pole.sway(&twice, 90).remaining < 1e-9, "{name}");
        }
        let second = rate(&axis, "second sway");
        assert!(second.sway(&once, 90).remaining > 1.0);
    }

    /// Under a steady acceleration the pole comes to rest displaced against it.
    #[test]
    fn a_steady_acceleration_displaces() {
        let pole = pole(4, 40);
        let sway = pole.sway(&[2.0, 2.0], 200);
        let (_, last) = sway.curve[sway.curve.len() - 1];
        assert!((last + 2.0 / pole.stiffness()).abs() < 1e-9);
    }
}
