//! The course of an axis: the plan up to arrival, the plan after it, and the target all along.

use polgamir::{Motion, RestPoint, State, Target};

use super::sway::Point;

/// The ticks of a plan.
#[derive(Debug, Clone, Copy)]
pub struct Ticks {
    /// The arrival.
    pub arrival: u32,
    /// The last tick drawn.
    pub last: u32,
}

/// Position, velocity and acceleration at a tick, in units.
#[derive(Debug, Clone, Copy, PartialEq)]
pub struct Moment {
    /// Units.
    pub position: f64,
    /// Units per tick.
    pub velocity: f64,
    /// Units per tick².
    pub acceleration: f64,
}

impl Moment {
    /// The moment of a row.
    pub fn of_row(motion: &Motion) -> Moment {
        Moment {
            position: motion.position_in_units(),
            velocity: motion.velocity_in_units(),
            acceleration: motion.acceleration_in_units(),
        }
    }

    /// The moment of a target at a tick; a fixed one is at rest.
    fn of_target(target: &Target, tick: u32) -> Moment {
        let state = match *target {
            Target::Fixed(RestPoint { position, .. }) => State { position, ..State::default() },
            Target::Moving(state) => state,
        };
        let acceleration = state.acceleration as f64;
        let moment = Moment { position: state.position as f64, velocity: state.velocity as f64, acceleration };
        moment.carried(f64::from(tick) - state.tick as f64)
    }

    /// The moment some ticks later, under the same acceleration.
    fn carried(self, ticks: f64) -> Moment {
        let Moment { position, velocity, acceleration } = self;
        Moment {
            position: position + velocity * ticks + acceleration * ticks * ticks / 2.0,
            velocity: velocity + acceleration * ticks,
            acceleration,
        }
    }
}

/// One quantity of an axis over the ticks.
pub struct Course {
    /// The plan, from tick 0 to arrival.
    pub plan: Vec<Point>,
    /// The plan from arrival on: row N, carried on under its acceleration.
    pub after: Vec<Point>,
    /// The target, from tick 0 on.
    pub target: Vec<Point>,
}

impl Course {
    /// The course of a quantity, from the rows of an axis and its target.
    pub fn of(rows: &[Moment], target: &Target, ticks: Ticks, quantity: impl Fn(Moment) -> f64) -> Course {
        let last_row = rows[rows.len() - 1];
        let point = |tick: u32, moment: Moment| (f64::from(tick), quantity(moment));
        let after = |tick: u32| last_row.carried(f64::from(tick - ticks.arrival));
        Course {
            plan: (0..).zip(rows).map(|(tick, &row)| point(tick, row)).collect(),
            after: (ticks.arrival..=ticks.last).map(|tick| point(tick, after(tick))).collect(),
            target: (0..=ticks.last).map(|tick| point(tick, Moment::of_target(target, tick))).collect(),
        }
    }

    /// The values that a panel is to show: those of the plan, whose later part is the target's.
    pub fn shown(&self) -> impl Iterator<Item = f64> + '_ {
        self.plan.iter().chain(&self.after).map(|&(_, value)| value)
    }
}

#[cfg(test)]
mod tests {
    use super::*;

    const TICKS: Ticks = Ticks { arrival: 3, last: 5 };

    /// Case H: the head joins a target that moves at one unit per tick, and both go on together.
    #[test]
    fn the_plan_goes_on_with_its_target() {
        let target = Target::Moving(State { position: 0, velocity: 1, acceleration: 0, tick: 0 });
        let moment = |position: f64, velocity: f64| Moment { position, velocity, acceleration: 0.0 };
        let rows = [moment(0.0, 0.0), moment(0.5, 1.0), moment(1.75, 1.5), moment(3.0, 1.0)];
        let course = Course::of(&rows, &target, TICKS, |moment| moment.position);
        assert_eq!(course.after, [(3.0, 3.0), (4.0, 4.0), (5.0, 5.0)]);
        assert_eq!(course.target, [(0.0, 0.0), (1.0, 1.0), (2.0, 2.0), (3.0, 3.0), (4.0, 4.0), (5.0, 5.0)]);
    }

    /// An accelerating target is carried from its tick in both directions, a fixed one stays where
    /// it is.
    #[test]
    fn targets_are_carried() {
        let target = Target::Moving(State { position: 10, velocity: 2, acceleration: 1, tick: 2 });
        let at = |tick| Moment::of_target(&target, tick);
        assert_eq!(at(0), Moment { position: 8.0, velocity: 0.0, acceleration: 1.0 });
        assert_eq!(at(4), Moment { position: 16.0, velocity: 4.0, acceleration: 1.0 });
        let still = Moment { position: 10.0, velocity: 0.0, acceleration: 0.0 };
        assert_eq!([0, 5].map(|tick| Moment::of_target(&Target::still(10), tick)), [still, still]);
    }
}
