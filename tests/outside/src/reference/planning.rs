//! The refusals from 3 on in checking order, the arrival, and the table of an accepted job.

use super::job::refusal;
use super::{Answer, Axis, Job, Order, Planned, Target, LATEST, RAIL};

/// The numbers that look at one axis, in checking order.
const OF_AN_AXIS: [u32; 7] = [4, 12, 5, 15, 6, 16, 17];

/// Those of the old rules, by which a fixed target may fly.
const OLD_RULES: [u32; 6] = [4, 12, 5, 15, 6, 16];

/// Whether an axis is refused by one of them.
fn breaks(number: u32, axis: &Axis) -> bool {
    let size = |x: i64| x.unsigned_abs();
    let position_bad = |p: i64| !RAIL.contains(&p);
    let (limit, h) = (u64::from(axis.speed_limit), axis.half_period);
    match number {
        4 => !(1..=1_048_576).contains(&axis.speed_limit) || !(1..=65_536).contains(&axis.acceleration_limit),
        12 => axis.damping.is_refused(),
        5 => h > 256 || !(1..=128).contains(&axis.weight()),
        15 => axis.second.is_some_and(|second| !(1..=256).contains(&second)),
        6 => {
            let moving_bad = match axis.target {
                Target::Fixed { .. } => false,
                Target::Moving { acceleration, tick, .. } => {
                    size(acceleration) > u64::from(axis.acceleration_limit) || size(tick) > LATEST as u64
                }
            };
            size(axis.start_velocity) > limit
                || size(axis.target.velocity()) > limit
                || moving_bad
                || position_bad(axis.start_position)
                || position_bad(axis.target.position())
        }
        16 => axis.second.is_some() && axis.target.acceleration() != 0,
        17 => axis.target.flies(),
        _ => unreachable!(),
    }
}

impl Job {
    /// Whether an arrival fits a window, where there are some.
    fn fits(&self, arrival: i64) -> bool {
        self.windows.is_none_or(|windows| windows.fit(arrival))
    }

    fn all_reach(&self, arrival: i64) -> bool {
        self.set().all(|(_, axis)| Planned::reaching(axis, arrival).is_some())
    }

    /// Whether every axis reaches an arrival that fits a window where there are some.
    pub(super) fn suits(&self, arrival: i64) -> bool {
        self.fits(arrival) && self.all_reach(arrival)
    }

    /// Whether every axis reaches an arrival.
    pub fn all_arrive(&self, arrival: i64) -> bool {
        self.by_hand().all_reach(arrival)
    }

    fn mask_of(&self, fails: impl Fn(&Axis) -> bool) -> u32 {
        self.set().filter(|(_, axis)| fails(axis)).map(|(i, _)| 1 << i).sum()
    }

    /// The refusal by 3, by a number of an axis or by 13, if there is one.
    pub(super) fn refused(&self) -> Option<Answer> {
        self.refused_by(&OF_AN_AXIS)
    }

    /// The same by the old rules.
    pub(super) fn refused_by_old_rules(&self) -> Option<Answer> {
        self.refused_by(&OLD_RULES)
    }

    fn refused_by(&self, numbers: &[u32]) -> Option<Answer> {
        if i64::from(self.asked) > LATEST {
            return Some(refusal(3, 1, 0, 0));
        }
        let of_an_axis = numbers.iter().find_map(|&number| {
            let (i, _) = self.set().find(|(_, axis)| breaks(number, axis))?;
            Some(refusal(number, i as u64, 0, 0))
        });
        of_an_axis.or_else(|| self.windows?.refused())
    }

    /// Whether the job asks for the least arrival and has none up to a tick: a long search, for
    /// whoever tries tick after tick.
    pub fn searches_past(&self, tick: i64) -> bool {
        self.asked == 0 && self.refused().is_none() && self.by_hand().reaches_none_up_to(tick)
    }

    fn reaches_none_up_to(&self, tick: i64) -> bool {
        !(1..=tick).any(|n| self.suits(n))
    }

    /// The arrival, or the first of refusals 3, 4, 12, 5, 15, 6, 16, 17, 13, 8 and 9.
    pub(super) fn arrival(&self) -> Result<i64, Answer> {
        if let Some(refused) = self.refused() {
            return Err(refused);
        }
        self.by_hand().reached_arrival()
    }

    /// The arrival, or the refusal by 8 or 9, of a job that passes the other checks.
    fn reached_arrival(&self) -> Result<i64, Answer> {
        if self.asked != 0 {
            let asked = i64::from(self.asked);
            let late = self.mask_of(|axis| Planned::reaching(axis, asked).is_none());
            // The mask is 0 where every axis reaches an arrival that fits no window.
            return if late == 0 && self.fits(asked) { Ok(asked) } else { Err(refusal(8, 0, late, 0)) };
        }
        (1..=LATEST).find(|&n| self.suits(n)).ok_or_else(|| {
            let never = self.mask_of(|axis| (1..=LATEST).all(|n| Planned::reaching(axis, n).is_none()));
            refusal(9, 0, never, 0)
        })
    }

    /// The arrival of a typed job, or its refusal, with no table asked for.
    pub fn arrival_or_refusal(&self) -> Result<u32, Answer> {
        if !(1..=63).contains(&self.mask) {
            return Err(refusal(1, 0, 0, 0));
        }
        self.arrival().map(|arrival| arrival as u32)
    }

    /// The answer of a call with typed values that needs no table.
    pub fn answer_before_ten(&self) -> Answer {
        match self.arrival_or_refusal() {
            Ok(arrival) => Answer { number: 0, place: 0, mask: self.mask, arrival },
            Err(refused) => refused,
        }
    }

    /// The planned motions of an accepted job's axes.
    pub fn motions(&self, arrival: i64) -> Vec<(Axis, Planned)> {
        self.by_hand().set().map(|(_, axis)| (*axis, Planned::reaching(axis, arrival).unwrap().with_list())).collect()
    }

    /// From refusal 3 on: the answer, with the cells of an accepted job written to the front of the
    /// table.
    pub(super) fn plan_checked(&self, order: Order, table: &mut [i64]) -> Answer {
        match self.arrival() {
            Ok(arrival) => self.write(arrival, order, table),
            Err(refused) => refused,
        }
    }

    /// The answer of a job whose arrival is known: its cells, or refusal 10.
    fn write(&self, arrival: i64, order: Order, table: &mut [i64]) -> Answer {
        let axes = self.count();
        if table.len() < 3 * axes * (arrival as usize + 1) {
            return refusal(10, 0, 0, arrival as u32);
        }
        for (rank, (axis, planned)) in self.motions(arrival).iter().enumerate() {
            for tick in 0..=arrival {
                let at = 3 * (axes * order.place(tick as usize, arrival as usize) + rank);
                table[at..at + 3].copy_from_slice(&planned.exact(axis, tick).cells());
            }
        }
        Answer { number: 0, place: 0, mask: self.mask, arrival: arrival as u32 }
    }

    /// The call with typed values, for rows in either order.
    pub fn plan_in(&self, order: Order, table: &mut [i64]) -> Answer {
        if !(1..=63).contains(&self.mask) {
            return refusal(1, 0, 0, 0);
        }
        self.plan_checked(order, table)
    }

    /// The call with typed values.
    pub fn plan(&self, table: &mut [i64]) -> Answer {
        self.plan_in(Order::Forwards, table)
    }
    /// The call of a job that passes the mask's check, by the old rules.
    pub fn plan_by_old_rules(&self, table: &mut [i64]) -> Answer {
        let arrival = match self.refused_by_old_rules() {
            Some(refused) => Err(refused),
            None => self.by_hand().reached_arrival(),
        };
        arrival.map_or_else(|refused| refused, |arrival| self.write(arrival, Order::Forwards, table))
    }
}
