//! The exact accelerations of a plan, before its cells are rounded: rules 2, 3 and 5 of
//! docs/METHOD.md and its blend, in whole numbers.
//!
//! The planner hands out rounded cells alone. What a pole keeps of their rounding is told apart
//! from the rest by these. They are held against every acceleration cell of the table, and
//! where one differs there are none.

use polgamir::{Axis, Motion, State, Target};

/// The exact accelerations of rows 0 to arrival in units per tick², or `None` where they do
/// not round to the table's cells.
pub fn accelerations(axis: &Axis, rows: &[Motion]) -> Option<Vec<f64>> {
    let arrival = rows.len() as i64 - 1;
    let leg = Leg::of(axis, arrival)?;
    let (planned, divisor) = (leg.accelerations(arrival), leg.divisor());
    let blended: Vec<i64> = (0..=arrival).map(|tick| leg.blended(&planned, tick)).collect();
    let met = blended.iter().zip(rows).all(|(&exact, row)| nearest(exact, divisor) == row.acceleration);
    met.then(|| blended.into_iter().map(|exact| exact as f64 / (256 * divisor) as f64).collect())
}

/// A target as a moving one: a fixed one is read as not accelerating, at its position at the
/// arrival.
fn moving(target: Target, arrival: i64) -> State {
    match target {
        Target::Fixed(point) => {
            State { position: point.position, velocity: point.velocity, acceleration: 0, tick: arrival }
        }
        Target::Moving(state) => state,
    }
}

/// The quotient rounded to the nearest, halves away from zero.
fn nearest(numerator: i64, divisor: i64) -> i64 {
    let size = (2 * numerator.abs() + divisor) / (2 * divisor);
    size * numerator.signum()
}

/// The planned motion of an axis from tick 0 to its landing, in steps of its grid.
struct Leg {
    weight: i64,
    half_period: i64,
    second_half_period: Option<i64>,
    /// Grid steps in a fine step.
    finer: i64,
    /// The ticks from the start to the landing.
    ticks: i64,
    start_velocity: i64,
    end_velocity: i64,
    end_acceleration: i64,
    limit: i64,
    step: i64,
    /// The sum of the velocities of ticks 1 to the landing, without it.
    required: i64,
}

impl Leg {
    /// Rules 2 and 3; `None` where the damping gives no weight or the arrival
    /// is not after the half periods.
    fn of(axis: &Axis, arrival: i64) -> Option<Leg> {
        let (weight, half_period) = (i64::from(axis.damping.weight()?), i64::from(axis.half_period));
        let second_half_period = axis.second_half_period.map(i64::from);
        let second = second_half_period.unwrap_or(0);
        let target = moving(axis.target, arrival);
        let a = target.acceleration;
        let corrected = a != 0 && half_period != 0 && weight != 128;
        let finer = match second_half_period {
            Some(_) => 2,
            None if corrected => 256,
            None => 1,
        };
        let ticks = arrival - half_period - second;
        let since = ticks - target.tick;
        let twice_y = 2 * target.position + 2 * target.velocity * since + a * since * since;
        let y_velocity = target.velocity + a * since;
        let gain = if corrected { 2 * weight * half_period * half_period * (weight - 128) * a } else { 0 };
        let shift = weight * half_period + 128 * second;
        let start_position = finer * (512 * axis.start.position + 2 * shift * axis.start.velocity);
        let end_position = finer * (256 * twice_y + 2 * shift * y_velocity) + gain;
        let start_velocity = finer * 256 * axis.start.velocity;
        let end_velocity = finer * (256 * y_velocity + weight * half_period * a);
        (ticks > 0).then_some(Leg {
            weight,
            half_period,
            second_half_period,
            finer,
            ticks,
            start_velocity,
            end_velocity,
            end_acceleration: finer * 256 * a,
            limit: finer * 256 * i64::from(axis.speed_limit),
            step: finer * 256 * i64::from(axis.acceleration_limit),
            required: (end_position - start_position - start_velocity - end_velocity) / 2,
        })
    }

    /// What a blended acceleration is divided by to give fine steps.
    fn divisor(&self) -> i64 {
        self.finer * if self.second_half_period.is_some() { 512 } else { 256 }
    }

    /// The velocity at a tick for a cruise: the cruise brought between the envelopes of rule 5.
    fn brought(&self, cruise: i64, tick: i64) -> i64 {
        let (rise, fall) = (self.step * tick, self.step * (self.ticks - tick));
        let upper = self.limit.min(self.start_velocity + rise).min(self.end_velocity + fall);
        let lower = (-self.limit).max(self.start_velocity - rise).max(self.end_velocity - fall);
        cruise.max(lower).min(upper)
    }

    /// The largest cruise whose sum does not exceed the required one, and what is left of that.
    fn cruise(&self) -> (i64, i64) {
        let sum = |cruise: i64| (1..self.ticks).map(|tick| self.brought(cruise, tick)).sum::<i64>();
        let (mut cruise, mut above) = (-self.limit, self.limit + 1);
        while above - cruise > 1 {
            let middle = (cruise + above).div_euclid(2);
            match sum(middle) <= self.required {
                true => cruise = middle,
                false => above = middle,
            }
        }
        (cruise, self.required - sum(cruise))
    }

    /// The planned accelerations of ticks 0 to arrival: the changes of the list that
    /// rule 5 chooses, then the target's.
    fn accelerations(&self, arrival: i64) -> Vec<i64> {
        let (cruise, mut remainder) = self.cruise();
        let mut velocities = vec![self.start_velocity];
        for tick in 1..self.ticks {
            let velocity = self.brought(cruise, tick);
            let raised = remainder > 0 && self.brought(cruise + 1, tick) > velocity;
            remainder -= i64::from(raised);
            velocities.push(velocity + i64::from(raised));
        }
        velocities.push(self.end_velocity);
        let changes = velocities.windows(2).map(|pair| pair[1] - pair[0]);
        changes.chain((self.ticks..=arrival).map(|_| self.end_acceleration)).collect()
    }

    /// The blend of planned accelerations at a tick, times the sum of its
    /// weights; they are 0 before tick 0.
    fn blended(&self, planned: &[i64], tick: i64) -> i64 {
        let at = |tick: i64| usize::try_from(tick).map_or(0, |tick| planned[tick]);
        let once = |tick: i64| (256 - self.weight) * at(tick) + self.weight * at(tick - self.half_period);
        once(tick) + self.second_half_period.map_or(0, |second| once(tick - second))
    }
}

#[cfg(test)]
mod tests {
    use super::*;
    use crate::test_axis::unblended;
    use polgamir::{Damping, Job, RestPoint};

    /// Numbers with no pattern, the same in every run.
    struct Drawn(u64);

    impl Drawn {
        fn below(&mut self, count: i64) -> i64 {
            self.0 = self.0.wrapping_mul(6_364_136_223_846_793_005).wrapping_add(1_442_695_040_888_963_407);
            (self.0 >> 33) as i64 % count
        }

        fn axis(&mut self) -> Axis {
            let (speed, push) = (1 + self.below(60), 1 + self.below(6));
            let second_half_period = (self.below(3) == 0).then(|| 1 + self.below(12) as u32);
            let moving = State {
                position: self.below(400) - 200,
                velocity: self.below(2 * speed + 1) - speed,
                acceleration: if second_half_period.is_some() { 0 } else { self.below(3) - 1 },
                tick: self.below(60) - 20,
            };
            let start = RestPoint { position: self.below(400) - 200, velocity: self.below(2 * speed + 1) - speed };
            let target = if self.below(2) == 0 { Target::still(moving.position) } else { Target::Moving(moving) };
            let half_period = self.below(14) as u32;
            let damping = Damping::Weight(if self.below(3) == 0 { 128 } else { 1 + self.below(128) as u32 });
            let (speed_limit, acceleration_limit) = (speed as u32, push as u32);
            Axis { start, speed_limit, acceleration_limit, half_period, damping, second_half_period, target }
        }
    }

    /// Of drawn jobs every acceleration cell is the exact one, rounded: on each of the three
    /// grids, and on each kind of target.
    #[test]
    fn they_round_to_the_cells() {
        let (mut drawn, mut grids) = (Drawn(7), [0; 3]);
        for _ in 0..3000 {
            let axis = drawn.axis();
            let Ok(plan) = Job::earliest().with_axis(0, axis).plan() else { continue };
            let rows: Vec<Motion> = plan.rows().filter_map(|row| row.axis(0)).collect();
            let exact = accelerations(&axis, &rows).unwrap_or_else(|| panic!("{axis:?}"));
            for (exact, row) in exact.iter().zip(&rows) {
                assert!((exact - row.acceleration_in_units()).abs() <= 0.5 / 256.0, "{axis:?}");
            }
            let finer = Leg::of(&axis, rows.len() as i64 - 1).expect("a leg").finer;
            grids[usize::from(finer > 1) + usize::from(finer > 2)] += 1;
        }
        assert!(grids.iter().all(|&count| count > 100), "{grids:?}");
    }

    /// Case C by hand: 256 fine steps in three ticks, 85 1/3 each; the first of them is raised.
    #[test]
    fn case_c() {
        let axis = unblended(10, 1, 0, 1);
        let leg = Leg::of(&axis, 4).expect("a leg");
        assert_eq!(leg.accelerations(4), [86, -1, 0, -85, 0]);
    }
}
