//! The planned motion of one axis, its blends and its cells: rules 1 to 3 of docs/METHOD.md, and
//! rules 4 and 5 by the areas of module `leg`.

use super::Axis;
use crate::leg::{Chosen, Leg};

/// The planned motion of one axis to one arrival, rules 1 to 3: positions in half steps
/// of its grid, the rest in steps.
pub struct Planned {
    first_position: i64,
    last_position: i64,
    change_after: i64,
    /// The steps of a unit.
    grid: i64,
    leg: Leg,
    chosen: Option<Chosen>,
}

/// The blends before they are divided: A times the planned motion at one tick and B times that at
/// another; and of these, where there is a second half period, the sum at two ticks.
#[derive(Clone, Copy, Debug, PartialEq, Eq)]
pub struct Exact {
    /// A fine step of velocity or acceleration is this much; one of position is twice as much.
    pub fine: i64,
    pub position: i64,
    pub velocity: i64,
    pub acceleration: i64,
}

/// The planned target's position gains this, in half steps of its grid (request 2.6): 0 on fine
/// steps.
fn gain(axis: &Axis) -> i64 {
    let (h, b) = (i64::from(axis.half_period), axis.weight());
    2 * b * h * h * (b - 128) * axis.target.acceleration()
}

/// An axis with a second half period is planned on a grid of 1/512 unit, one after an accelerating
/// target on a damped pole on 1/65,536 unit, any other on fine steps.
fn grid(axis: &Axis) -> i64 {
    if axis.second.is_some() {
        512
    } else if axis.target.acceleration() != 0 && axis.half_period != 0 && axis.weight() != 128 {
        65_536
    } else {
        256
    }
}

impl Planned {
    /// None where the arrival is not reachable (rule 4).
    pub fn reaching(axis: &Axis, arrival: i64) -> Option<Planned> {
        let (h, b) = (i64::from(axis.half_period), axis.weight());
        let ticks = arrival - axis.delay();
        if ticks <= 0 {
            return None;
        }
        let a = axis.target.acceleration();
        let (twice_target, target_velocity) = axis.target.at(ticks, arrival);
        // Rules 2 and 3 in fine steps of 1/256 unit, each of which is this many steps of the
        // grid. Start and target are shifted by their velocity times Bh / 256, and half of a
        // second half period, here in half steps.
        let grid = grid(axis);
        let scale = grid / 256;
        let shift = scale * 2 * b * h + grid * axis.second_delay();
        let first_position = scale * 512 * axis.start_position + shift * axis.start_velocity;
        let first = grid * axis.start_velocity;
        let last_position = scale * 256 * twice_target + shift * target_velocity + gain(axis);
        let last = scale * (256 * target_velocity + b * h * a);
        let limit = grid * i64::from(axis.speed_limit);
        if (last + grid * a * axis.delay()).abs() > limit {
            return None;
        }
        // A tick adds its velocity and the next one's to the position: the ends once, those between
        // twice.
        let twice_sum = last_position - first_position - first - last;
        assert!(twice_sum % 2 == 0, "half a step is left over: {axis:?} at {arrival}");
        let slope = grid * i64::from(axis.acceleration_limit);
        let leg = Leg { limit, slope, first, last, ticks, sum: twice_sum / 2 };
        if !leg.has_list() {
            return None;
        }
        Some(Planned { first_position, last_position, change_after: grid * a, grid, leg, chosen: None })
    }

    /// The motion with its velocity list chosen (rule 5).
    pub fn with_list(self) -> Planned {
        Planned { chosen: Some(self.leg.chosen()), ..self }
    }

    fn list(&self) -> &Chosen {
        self.chosen.as_ref().expect("the list has been chosen")
    }

    fn velocity(&self, tick: i64) -> i64 {
        if tick < 0 {
            self.leg.first
        } else if tick > self.leg.ticks {
            self.leg.last + self.change_after * (tick - self.leg.ticks)
        } else {
            self.list().velocity(tick)
        }
    }

    fn position(&self, tick: i64) -> i64 {
        let after = tick - self.leg.ticks;
        if tick <= 0 {
            self.first_position + 2 * self.leg.first * tick
        } else if after >= 0 {
            self.last_position + 2 * self.leg.last * after + self.change_after * after * after
        } else {
            self.first_position + self.leg.first + 2 * self.list().sum(tick - 1) + self.velocity(tick)
        }
    }

    pub fn acceleration(&self, tick: i64) -> i64 {
        if tick < 0 {
            0
        } else {
            self.velocity(tick + 1) - self.velocity(tick)
        }
    }

    /// The blend of `axis` at a tick, by its first half period alone.
    fn blended(&self, axis: &Axis, tick: i64) -> Exact {
        let (h, b) = (i64::from(axis.half_period), axis.weight());
        let blend = |early: i64, late: i64| (256 - b) * early + b * late;
        Exact {
            fine: self.grid,
            position: blend(self.position(tick), self.position(tick - h)),
            velocity: blend(self.velocity(tick), self.velocity(tick - h)),
            acceleration: blend(self.acceleration(tick), self.acceleration(tick - h)),
        }
    }

    /// The blend of `axis` at a tick, applied once more with equal weights where
    /// there is a second half period.
    pub fn exact(&self, axis: &Axis, tick: i64) -> Exact {
        let once = self.blended(axis, tick);
        match axis.second {
            None => once,
            Some(delay) => once.and(self.blended(axis, tick - i64::from(delay))),
        }
    }
}

/// The nearest whole number, halves away from zero (request 2.4).
fn nearest(x: i64, by: i64) -> i64 {
    x.signum() * ((2 * x.abs() + by) / (2 * by))
}

impl Exact {
    /// The blend with another of equal weight.
    fn and(self, other: Exact) -> Exact {
        Exact {
            fine: self.fine + other.fine,
            position: self.position + other.position,
            velocity: self.velocity + other.velocity,
            acceleration: self.acceleration + other.acceleration,
        }
    }

    /// The negated motion's blend.
    pub fn negated(&self) -> Exact {
        let Exact { fine, position, velocity, acceleration } = *self;
        Exact { fine, position: -position, velocity: -velocity, acceleration: -acceleration }
    }

    /// The three cells of a row.
    pub fn cells(&self) -> [i64; 3] {
        let Exact { fine, position, velocity, acceleration } = *self;
        [nearest(position, 2 * fine), nearest(velocity, fine), nearest(acceleration, fine)]
    }
}

#[cfg(test)]
mod tests {
    use super::*;
    use crate::plain::{asked, one, to, PLAIN};
    use crate::random::Random;
    use crate::reference::{Damping, Target};

    #[test]
    fn halves_go_away_from_zero() {
        let rounded: Vec<i64> = (-8..=8).map(|x| nearest(x, 4)).collect();
        assert_eq!(rounded, [-2, -2, -2, -1, -1, -1, -1, 0, 0, 0, 1, 1, 1, 1, 2, 2, 2]);
    }

    #[test]
    fn a_negated_motion_has_negated_cells() {
        let mut random = Random::new(44);
        for _ in 0..10_000 {
            let mut some = || random.between(-1 << 20, 1 << 20) * 64;
            let there = Exact { fine: 256, position: some(), velocity: some(), acceleration: some() };
            assert_eq!(there.cells().map(|cell| -cell), there.negated().cells());
        }
    }

    fn damped(speed: u32, acceleration: u32, weight: u32, target: Target) -> Axis {
        Axis {
            speed_limit: speed,
            acceleration_limit: acceleration,
            half_period: 2,
            damping: Damping::Weight(weight),
            target,
            ..PLAIN
        }
    }

    fn moving(position: i64, velocity: i64, acceleration: i64, tick: i64) -> Target {
        Target::Moving { position, velocity, acceleration, tick }
    }

    #[test]
    fn accelerating_targets_on_damped_poles() {
        let mut table = [0; 63];
        // Cruise and remainder are on the finer grid too: on 1/256 this is 1409.
        asked(one(damped(100, 10, 64, moving(3, 1, 2, 0))), 6).plan(&mut table);
        assert_eq!(table[2], 1408);
        let answer = asked(one(damped(10, 1, 100, moving(0, 0, 1, 20))), 20).plan(&mut table);
        assert_eq!(answer.number, 0);
        assert_eq!(table[..9], [0, 0, 11, 5, 11, 0, 16, 11, 7]);
        assert_eq!(table[54..], [148, -183, 127, 28, -56, 56, 0, 0, 256]);
        // The speed at T and N is that of the planned velocity.
        let axis = damped(12, 10, 64, moving(3, 1, 2, 0));
        let reached: Vec<i64> = (1..=4_096).filter(|&n| Planned::reaching(&axis, n).is_some()).collect();
        assert_eq!(reached, [4, 5]);
    }

    /// Landing is exact before rounding, for large blends and accelerations too.
    #[test]
    fn the_gain_lands_on_the_target() {
        let mut random = Random::new(45);
        let mut landed = 0;
        while landed < 300 {
            let a = random.between(-65_536, 65_536);
            let axis = Axis {
                half_period: random.between(1, 256) as u32,
                damping: Damping::Weight(random.between(1, 128) as u32),
                ..damped(1 << 20, 65_536, 1, moving(random.between(-99, 99), 0, a, random.between(200, 900)))
            };
            let arrival = random.between(300, 900);
            let Some(planned) = Planned::reaching(&axis, arrival) else { continue };
            let (twice_position, velocity) = axis.target.at(arrival, arrival);
            let last = planned.with_list().exact(&axis, arrival);
            let want = [256 * last.fine * twice_position, 256 * last.fine * velocity, 256 * last.fine * a];
            assert_eq!([last.position, last.velocity, last.acceleration], want, "{axis:?}");
            landed += 1;
        }
    }

    #[test]
    fn poles_with_a_second_sway() {
        let mut table = [0; 18];
        let axis = Axis { half_period: 1, damping: Damping::Weight(100), second: Some(2), ..to(1) };
        assert_eq!(one(axis).plan(&mut table).arrival, 5);
        let rows = [[0, 0, 78], [39, 78, -28], [103, 50, 28], [167, 78, -28], [231, 50, -50], [256, 0, 0]];
        assert_eq!(table[..], rows.concat());
        asked(one(Axis { second: Some(1), ..to(1) }), 5).plan(&mut table);
        assert_eq!(table[3..6], [21, 43, 43]);
        // Arrival exceeds h + h₂, also where nothing moves.
        let still = Axis { half_period: 3, second: Some(4), ..to(0) };
        assert_eq!(one(still).plan(&mut [0; 30]).arrival, 8);
    }

    /// With a second half period the first and the last row are exact before rounding,
    /// also of moving heads and targets.
    #[test]
    fn two_blends_start_and_land_exactly() {
        let mut random = Random::new(46);
        let mut landed = 0;
        while landed < 300 {
            let target = moving(random.between(-99, 99), random.between(-9, 9), 0, random.between(-900, 900));
            let axis = Axis {
                start_position: random.between(-999, 999),
                start_velocity: random.between(-9, 9),
                half_period: random.between(0, 256) as u32,
                second: Some(random.between(1, 256) as u32),
                ..damped(1 << 20, 65_536, random.between(1, 128) as u32, target)
            };
            let arrival = random.between(300, 900);
            let Some(planned) = Planned::reaching(&axis, arrival).map(Planned::with_list) else { continue };
            let unit = 256 * 1_024;
            let first = planned.exact(&axis, 0);
            assert_eq!((first.fine, first.position), (1_024, 2 * unit * axis.start_position), "{axis:?}");
            assert_eq!(first.velocity, unit * axis.start_velocity, "{axis:?}");
            let (twice_position, velocity) = axis.target.at(arrival, arrival);
            let last = planned.exact(&axis, arrival);
            let want = [unit * twice_position, unit * velocity, 0];
            assert_eq!([last.position, last.velocity, last.acceleration], want, "{axis:?}");
            landed += 1;
        }
    }

    /// Only the rounding is mirrored, and not the list that rule 5 chooses.
    #[test]
    fn to_the_left() {
        let mut table = [0; 15];
        asked(one(to(-1)), 4).plan(&mut table);
        let column = |j: usize| table.chunks(3).map(|row| row[j]).collect::<Vec<i64>>();
        assert_eq!(column(0), [0, -43, -128, -213, -256]);
        assert_eq!(column(1), [0, -85, -85, -86, 0]);
    }
}
