//! The least raises of the limits that an asked arrival takes, of the library and of plain Rust.

use outside::reference::{Axis, Job};
use polgamir_sys::{polgamir_raise, polgamir_raises};

use crate::plain::{delay_of, ends, reaches, Ends, Engine, Leg};

/// The limit, 1 for M and 2 for L, and what is added to it; 0 in both where there is none.
type Raise = (u32, u32);

/// The raises that the library returned, as the plain side writes them.
pub fn returned(raises: polgamir_raises) -> [[Raise; 2]; 6] {
    let pair = |raise: polgamir_raise| (raise.limit, raise.by);
    raises.axes.map(|axis| [pair(axis.first), pair(axis.second)])
}

/// What the leg of an arrival asks of the limits, with every sign turned where it does
/// not go as far as the straight line between the velocities of its ends: only the
/// upper envelope can fall short.
struct Task {
    first: i64,
    last: i64,
    ticks: i64,
    /// The greatest speed at the start, at the landing and at the arrival.
    fastest: i64,
    sum: i64,
    /// Grid steps in a unit.
    steps: i64,
    /// M and L as they are, in units.
    limits: [i64; 2],
}

impl Task {
    fn of(axis: &Axis, tick: u32) -> Option<Task> {
        let delay = delay_of(axis);
        if tick <= delay {
            return None;
        }
        let Ends { change_after, finer, leg: Leg { first, last, ticks, sum, .. }, .. } = ends(axis, tick);
        let arrived = last + change_after * i64::from(delay);
        let fastest = first.abs().max(last.abs()).max(arrived.abs());
        let sign = if 2 * sum + first + last < ticks * (first + last) { -1 } else { 1 };
        let limits = [axis.acceleration_limit, axis.speed_limit].map(i64::from);
        let steps = 256 * finer;
        Some(Task { first: sign * first, last: sign * last, ticks, fastest, sum: sign * sum, steps, limits })
    }

    /// What the ends ask of a limit, and how much of it a unit of the limit makes.
    fn need(&self, limit: usize) -> (i64, i64) {
        match limit {
            0 => ((self.last - self.first).abs(), self.steps * self.ticks),
            _ => (self.fastest, self.steps),
        }
    }

    /// The value itself where it is enough; else a higher one, at most `after`, below which none
    /// is.
    fn lead(&self, limit: usize, value: i64, after: i64) -> i64 {
        let mut limits = self.limits;
        limits[limit] = value;
        let [slope, limit_of_speed] = limits.map(|limit| self.steps * limit);
        let Task { first, last, ticks, sum, .. } = *self;
        let leg = Leg { limit: limit_of_speed, slope, first, last, ticks, sum };
        let (area, [rising, level, falling]) = leg.area_in_parts(limit_of_speed);
        if sum <= area {
            return value;
        }
        let gain = match limit {
            0 => rising * (rising + 1) / 2 + falling * (falling + 1) / 2,
            _ => level,
        };
        match (self.steps * gain) as u64 {
            0 => after,
            gain => after.min(value + ((sum - area - 1) as u64 / gain) as i64 + 1),
        }
    }

    /// The least raise of a limit, 0 for M and 1 for L, that is enough.
    fn least(&self, limit: usize) -> Raise {
        let (other, unit) = self.need(1 - limit);
        if other > unit * self.limits[1 - limit] {
            return (0, 0);
        }
        let (need, unit) = self.need(limit);
        let current = self.limits[limit];
        let after = [(1 << 16) + 1, (1 << 20) + 1][limit];
        let (mut low, mut high) = (after.min((current + 1).max((need + unit - 1) / unit)), after);
        let mut tests = 0;
        while low < high {
            let value = if tests < 10 { low } else { (low + high) / 2 };
            tests += 1;
            match self.lead(limit, value, high) {
                next if next == value => high = value,
                next => low = next,
            }
        }
        match low == after {
            true => (0, 0),
            false => (limit as u32 + 1, (low - current) as u32),
        }
    }
}

/// Both raises of an axis, the smaller first; one that does not exist is left out.
fn both(axis: &Axis, tick: u32) -> [Raise; 2] {
    let Some(task) = Task::of(axis, tick) else { return [(0, 0); 2] };
    match [task.least(0), task.least(1)] {
        [m, l] if m.1 == 0 || l.1 != 0 && l.1 < m.1 => [l, m],
        raises => raises,
    }
}

/// The raises in plain Rust, of a job that no refusal before 8 comes to.
pub fn plain(job: &Job) -> [[Raise; 2]; 6] {
    let mut raises = [[(0, 0); 2]; 6];
    for (i, axis) in job.set() {
        if !reaches(Engine::Areas, axis, job.asked) {
            raises[i] = both(axis, job.asked);
        }
    }
    raises
}
