//! The planner in plain Rust, with the library's formulas and loops and none of its proofs:
//! reach of an arrival from the areas under the envelopes, the least common arrival by axes
//! that lead on from candidate to candidate, past those that surely fall short and then with
//! sums that are carried from one to the next, or by halving where the target accelerates,
//! cruise by halving steps over areas, rows by stepping a track an axis, blended once or, on a
//! pole with a second sway, twice, by a change of velocity that is worked out once for all
//! ticks around in which it is the same. Beside it the engine by ticks: every candidate is
//! tried, and every sum is taken tick by tick.

use std::ops::Range;

use outside::reference::{Answer, Axis, Damping, Job, Target, Window, RAIL};

const LATEST: u32 = 4096;

pub struct Leg {
    pub limit: i64,
    pub slope: i64,
    pub first: i64,
    pub last: i64,
    pub ticks: i64,
    pub sum: i64,
}

pub struct Ends {
    first_position: i64,
    pub change_after: i64,
    /// Grid steps in a fine step.
    pub finer: i64,
    pub leg: Leg,
}

/// The ticks from the landing to the arrival.
pub fn delay_of(axis: &Axis) -> u32 {
    axis.half_period + axis.second.unwrap_or(0)
}

/// The grid steps in a fine step.
fn grid_of(axis: &Axis, acceleration: i64) -> i64 {
    match axis.second {
        Some(_) => 2,
        None if acceleration != 0 && axis.half_period != 0 && weight_of(axis) != 128 => 256,
        None => 1,
    }
}

pub fn ends(axis: &Axis, arrival: u32) -> Ends {
    let (h, b) = (i64::from(axis.half_period), i64::from(weight_of(axis)));
    let ticks = i64::from(arrival) - i64::from(delay_of(axis));
    let (p, v, a, t) = match axis.target {
        Target::Fixed { position, velocity } => (position, velocity, 0, i64::from(arrival)),
        Target::Moving { position, velocity, acceleration, tick } => (position, velocity, acceleration, tick),
    };
    let d = ticks - t;
    let finer = grid_of(axis, a);
    let correction = 2 * b * h * h * (b - 128) * a;
    let target_velocity = v + a * d;
    let shift = 2 * b * h + 256 * i64::from(axis.second.unwrap_or(0));
    let first_position = finer * (512 * axis.start_position + shift * axis.start_velocity);
    let last_position = finer * (256 * (2 * p + 2 * v * d + a * d * d) + shift * target_velocity) + correction;
    let (first, last) = (finer * 256 * axis.start_velocity, finer * (256 * target_velocity + b * h * a));
    let leg = Leg {
        limit: finer * 256 * i64::from(axis.speed_limit),
        slope: finer * 256 * i64::from(axis.acceleration_limit),
        first,
        last,
        ticks,
        sum: (last_position - first_position - first - last) >> 1,
    };
    Ends { first_position, change_after: finer * 256 * a, finer, leg }
}

/// The second weight, which the jobs timed here give as a number.
fn weight_of(axis: &Axis) -> u32 {
    match axis.damping {
        Damping::Weight(weight) => weight,
        _ => unreachable!("the timed jobs have a weight given"),
    }
}

/// How a sum of velocities is taken, and how the least common arrival is searched for.
#[derive(Clone, Copy)]
pub enum Engine {
    /// As the library does: from areas, and from one candidate to the next by a step.
    Areas,
    /// Tick by tick, and candidate after candidate.
    Ticks,
}

/// The velocities at a cruise: up to tick `rise` they change by `up` a tick; from `fall` ticks
/// before the end on they are `down` further from it for each tick that is left.
struct Ramps {
    rise: i64,
    up: i64,
    fall: i64,
    down: i64,
}

/// The sums of both envelopes over the inner ticks of a leg, and the velocities that come to them
/// with one and with two ticks more, before the speed limit is heeded.
struct Running {
    lowest: i64,
    highest: i64,
    trough: i64,
    later_trough: i64,
    peak: i64,
    later_peak: i64,
}

impl Running {
    /// The sums of one tick more.
    fn step(&self, limit: i64, slope: i64) -> Running {
        Running {
            lowest: self.lowest + self.trough.max(-limit),
            highest: self.highest + self.peak.min(limit),
            trough: self.later_trough,
            later_trough: self.trough - slope,
            peak: self.later_peak,
            later_peak: self.peak + slope,
        }
    }
}

/// A quotient of numbers that are not negative.
fn quotient(x: i64, by: i64) -> i64 {
    (x as u64 / by as u64) as i64
}

/// The velocity that comes to the upper envelope of ramps from `first` and to `last` with one tick
/// more.
fn peak(slope: i64, first: i64, last: i64, ticks: i64) -> i64 {
    let crossing = quotient(last - first + slope * ticks, 2 * slope);
    (first + slope * (crossing + 1)).min(last + slope * (ticks - crossing))
}

impl Leg {
    /// The lower and the upper envelope at a tick.
    fn envelopes(&self, tick: i64) -> (i64, i64) {
        let (rise, fall) = (self.slope * tick, self.slope * (self.ticks - tick));
        let lower = (-self.limit).max(self.first - rise).max(self.last - fall);
        let upper = self.limit.min(self.first + rise).min(self.last + fall);
        (lower, upper)
    }

    fn velocity(&self, cruise: i64, tick: i64) -> i64 {
        let (lower, upper) = self.envelopes(tick);
        lower.max(upper.min(cruise))
    }

    fn sum_by(&self, engine: Engine, cruise: i64) -> i64 {
        match engine {
            Engine::Areas => self.area_at(cruise),
            Engine::Ticks => (1..self.ticks).map(|k| self.velocity(cruise, k)).sum(),
        }
    }

    fn has_list(&self, engine: Engine) -> bool {
        self.first.abs() <= self.limit
            && self.last.abs() <= self.limit
            && (self.last - self.first).abs() <= self.slope * self.ticks
            && match engine {
                Engine::Areas => self.comes_up(),
                Engine::Ticks => {
                    self.sum_by(engine, -self.limit) <= self.sum && self.sum <= self.sum_by(engine, self.limit)
                }
            }
    }

    /// Whether the envelope that can fall short of the sum does not: the upper one where
    /// the sum is at least that of the straight line from one end to the other.
    fn comes_up(&self) -> bool {
        if (self.ticks - 1) * (self.first + self.last) <= 2 * self.sum {
            return self.sum <= self.area_at(self.limit);
        }
        let turned = Leg { first: -self.first, last: -self.last, sum: -self.sum, ..*self };
        turned.sum <= turned.area_at(self.limit)
    }

    fn cruise(&self, engine: Engine) -> i64 {
        let mut cruise = -self.limit;
        for bit in (0..39).rev() {
            let higher = cruise + (1 << bit);
            if higher <= self.limit && self.sum_by(engine, higher) <= self.sum {
                cruise = higher;
            }
        }
        cruise
    }

    fn ramps(&self, cruise: i64) -> Ramps {
        let short = |from: i64| {
            let way = if from <= cruise { cruise - from } else { from - cruise - 1 };
            quotient(way, self.slope)
        };
        let slope = |from: i64| if from <= cruise { self.slope } else { -self.slope };
        let (mut rise, mut fall) = (short(self.first), short(self.last));
        if self.ticks <= rise + fall {
            let apart = if self.first <= cruise { self.last - self.first } else { self.first - self.last };
            rise = quotient(apart + self.slope * self.ticks, 2 * self.slope);
            fall = self.ticks - rise;
        }
        Ramps { rise, up: slope(self.first), fall, down: slope(self.last) }
    }

    /// The sum at a cruise, by a ramp, a level part and a ramp, and how many ticks each of the
    /// three has.
    pub fn area_in_parts(&self, cruise: i64) -> (i64, [i64; 3]) {
        let Ramps { rise, up, fall, down } = self.ramps(cruise);
        let inner = self.ticks - 1;
        let rising = rise.min(inner);
        let falling = fall.min(inner - rising);
        let level = inner - rising - falling;
        let ramp = |from: i64, change: i64, ticks: i64| ticks * from + ticks * (ticks + 1) / 2 * change;
        let area = ramp(self.first, up, rising) + level * cruise + ramp(self.last, down, falling);
        (area, [rising, level, falling])
    }

    fn area_at(&self, cruise: i64) -> i64 {
        self.area_in_parts(cruise).0
    }

    fn running_sums(&self) -> Running {
        let &Leg { limit, slope, first, last, ticks, .. } = self;
        Running {
            lowest: self.area_at(-limit),
            highest: self.area_at(limit),
            trough: -peak(slope, -first, -last, ticks),
            later_trough: -peak(slope, -first, -last, ticks + 1),
            peak: peak(slope, first, last, ticks),
            later_peak: peak(slope, first, last, ticks + 1),
        }
    }

    /// An area that is no smaller than the upper envelope's, by a split of the ticks that needs no
    /// division.
    fn split_area(&self, ticks: i64, room: [i64; 2], lean: i64) -> i64 {
        let inner = ticks - 1;
        let rising = room[0].min(((ticks + lean) / 2).max(0)).min(inner);
        let falling = room[1].min(inner - rising);
        let ramp = |from: i64, ticks: i64| ticks * from + ticks * (ticks + 1) / 2 * self.slope;
        ramp(self.first, rising) + (inner - rising - falling) * self.limit + ramp(self.last, falling)
    }

    /// A number of ticks, from those of the leg on, before which none has a list: leaps over
    /// those whose split area falls short.
    fn skipped(&self, drift: i64, latest: i64) -> i64 {
        if latest < self.ticks + 64 {
            return self.ticks;
        }
        if (self.ticks - 1) * (self.first + self.last) > 2 * self.sum {
            let turned = Leg { first: -self.first, last: -self.last, sum: -self.sum, ..*self };
            return turned.skip_short(-drift, latest);
        }
        self.skip_short(drift, latest)
    }

    fn skip_short(&self, drift: i64, latest: i64) -> i64 {
        let room = [self.first, self.last].map(|from| quotient(self.limit - from, self.slope));
        let lean = if self.first == self.last { 0 } else { (self.last - self.first) / self.slope };
        let short = |t: i64| self.split_area(t, room, lean) < self.sum + (t - self.ticks) * drift;
        let mut t = self.ticks + 64;
        if !short(t) {
            return self.ticks;
        }
        let mut step = 2_048;
        while step >= 8 {
            if t + step <= latest && short(t + step) {
                t += step;
            }
            step /= 2;
        }
        t + 1
    }

    /// The least number of ticks, from those of the leg to the latest, at which there is a list for
    /// a sum that changes by `drift` a tick; or one past the latest.
    fn next_with_list(&self, drift: i64, latest: i64) -> i64 {
        let near = quotient((self.last - self.first).abs() + self.slope - 1, self.slope).max(self.ticks);
        if near > latest {
            return latest + 1;
        }
        let sum = self.sum + (near - self.ticks) * drift;
        let far = Leg { ticks: near, sum, ..*self }.skipped(drift, latest);
        let mut sum = sum + (far - near) * drift;
        let mut sums = Leg { ticks: far, ..*self }.running_sums();
        for ticks in far..=latest {
            if sums.lowest <= sum && sum <= sums.highest {
                return ticks;
            }
            sums = sums.step(self.limit, self.slope);
            sum += drift;
        }
        latest + 1
    }
}

pub fn reaches(engine: Engine, axis: &Axis, arrival: u32) -> bool {
    let delay = delay_of(axis);
    if arrival <= delay {
        return false;
    }
    let Ends { change_after, leg, .. } = ends(axis, arrival);
    (leg.last + change_after * i64::from(delay)).abs() <= leg.limit && leg.has_list(engine)
}

/// How many ticks after a leg's arrival the target is slow enough for the last time, of
/// those up to `most`, if it is at one of them.
fn last_slow(ends: &Ends, delay: i64, most: i64) -> i64 {
    let Ends { change_after, leg, .. } = ends;
    let arrived = leg.last + change_after * delay;
    let room = if *change_after < 0 { leg.limit + arrived } else { leg.limit - arrived };
    match change_after.abs() {
        0 => most,
        _ if room < 0 => 0,
        change => quotient(room, change).min(most),
    }
}

/// Whether the arrival that is some ticks later than that of a leg is reached: with each
/// tick the velocity of its end changes by as much.
fn reaches_later(ends: &Ends, delay: i64, later: i64) -> bool {
    let Ends { change_after, leg, .. } = ends;
    let last = leg.last + later * change_after;
    let travel = 2 * leg.sum + leg.first + leg.last + later * (2 * leg.last + later * change_after);
    let leg = Leg { last, ticks: leg.ticks + later, sum: (travel - leg.first - last) >> 1, ..*leg };
    (last + change_after * delay).abs() <= leg.limit && leg.has_list(Engine::Areas)
}

/// The least arrival from n to the last that an axis whose target accelerates reaches, or
/// one past the last, by halving.
fn next_by_halving(axis: &Axis, n: u32, last: u32) -> u32 {
    let delay = delay_of(axis);
    let first = n.max(delay + 1);
    if last < first {
        return last + 1;
    }
    let ends = ends(axis, first);
    let reach = |later: i64| reaches_later(&ends, i64::from(delay), later);
    if reach(0) {
        return first;
    }
    let high = last_slow(&ends, i64::from(delay), i64::from(last - first));
    if !reach(high) {
        return last + 1;
    }
    let (mut low, mut width) = (0, 4096);
    while 1 < width {
        width -= width / 2;
        if low + width <= high && !reach(low + width) {
            low += width;
        }
    }
    first + low as u32 + 1
}

/// Whether the axis reaches an arrival at all.
fn reaches_some(axis: &Axis) -> bool {
    let delay = delay_of(axis);
    let ends = ends(axis, delay + 1);
    let high = last_slow(&ends, i64::from(delay), i64::from(LATEST - delay - 1));
    reaches(Engine::Areas, axis, delay + 1 + high as u32)
}

/// The least arrival from n to the last that the axis reaches, or one past the last.
fn next_reached(axis: &Axis, n: u32, last: u32) -> u32 {
    if axis.target.acceleration() != 0 {
        return next_by_halving(axis, n, last);
    }
    let delay = delay_of(axis);
    let first = n.max(delay + 1);
    if first > last {
        return last + 1;
    }
    let drift = match axis.target {
        Target::Fixed { .. } => 0,
        Target::Moving { velocity, .. } => grid_of(axis, 0) * 256 * velocity,
    };
    let latest = i64::from(last - delay);
    ends(axis, first).leg.next_with_list(drift, latest) as u32 + delay
}

/// The least common arrival from 1 on: the axes lead on one after the other, each to the next
/// candidate that it reaches; those before the one that led on last are asked again.
fn least_reached(job: &Job) -> Option<u32> {
    let (mut n, mut again) = (1, 0);
    for (number, axis) in job.set() {
        let next = next_reached(axis, n, LATEST);
        if LATEST < next {
            return None;
        }
        if next != n {
            again = number;
        }
        n = next;
    }
    let kept = |axis: &Axis| axis.target.acceleration() == 0 || reaches(Engine::Areas, axis, n);
    job.set().take_while(|&(number, _)| number < again).all(|(_, axis)| kept(axis)).then_some(n)
}

/// The least common arrival; of a job with windows the first tick from there that fits
/// one, where every axis reaches it.
fn least_arrival(job: &Job) -> Option<u32> {
    let n = least_reached(job)?;
    let Some(windows) = &job.windows else { return Some(n) };
    let room = windows.dwell.max(1);
    let first = |window: &Window| {
        let tick = window.opening.max(n);
        (tick <= window.closing.saturating_sub(room).min(LATEST)).then_some(tick)
    };
    let tick = windows.list[..windows.count as usize].iter().find_map(first)?;
    job.set().all(|(_, axis)| reaches(Engine::Areas, axis, tick)).then_some(tick)
}

/// The same by ticks: every candidate is tried, with sums of its own.
fn least_by_ticks(job: &Job) -> Option<u32> {
    let fits = |n: u32| job.windows.as_ref().map_or(true, |windows| windows.fit(i64::from(n)));
    (1..=LATEST).find(|&n| fits(n) && job.set().all(|(_, axis)| reaches(Engine::Ticks, axis, n)))
}

/// An axis on its way through the rows: its planned velocities in three regions, and its track.
struct Track {
    first: i64,
    rise: i64,
    up: i64,
    cruise: i64,
    raised: i64,
    last: i64,
    fall: i64,
    down: i64,
    ticks: i64,
    change_after: i64,
    half_period: i64,
    /// The second half period, where the blend is applied once more.
    second: Option<i64>,
    /// The weights of the blend, so scaled that all of them together are 65,536 by
    /// the grid steps in a fine step.
    first_weight: i64,
    second_weight: i64,
    /// The blended position, in half 1/65,536 of a fine step, and the blended velocity at the row's
    /// tick.
    position: i64,
    velocity: i64,
    /// The pace of the blended velocity.
    pace: Pace,
}

/// The change of a velocity in each of some ticks.
struct Pace {
    change: i64,
    ticks: Range<i64>,
}

impl Pace {
    fn new(change: i64, ticks: Range<i64>) -> Pace {
        Pace { change, ticks }
    }

    /// A change in the ticks that two paces have in common.
    fn common(change: i64, one: &Pace, other: &Pace) -> Pace {
        Pace::new(change, one.ticks.start.max(other.ticks.start)..one.ticks.end.min(other.ticks.end))
    }
}

/// The nearest whole number, halves away from zero.
fn nearest(x: i64, by: i64) -> i64 {
    if x < 0 {
        (x - by / 2) / by
    } else {
        (x + by / 2) / by
    }
}

impl Track {
    fn new(engine: Engine, axis: &Axis, arrival: u32) -> Track {
        let Ends { first_position, change_after, finer, leg } = ends(axis, arrival);
        let cruise = leg.cruise(engine);
        let raised = leg.sum - leg.sum_by(engine, cruise);
        let half_period = i64::from(axis.half_period);
        let second = axis.second.map(i64::from);
        let blends = if second.is_some() { 2 } else { 1 };
        let scale = 256 / finer / blends;
        let second_weight = scale * i64::from(weight_of(axis));
        let first_weight = scale * 256 - second_weight;
        let lag = blends * second_weight * half_period + scale * 256 * second.unwrap_or(0);
        let position = blends * scale * 256 * first_position - 2 * lag * leg.first;
        let velocity = blends * scale * 256 * leg.first;
        let Ramps { rise, up, fall, down } = leg.ramps(cruise);
        let Leg { first, last, ticks, .. } = leg;
        Track {
            first,
            rise,
            up,
            cruise,
            raised,
            last,
            fall,
            down,
            ticks,
            change_after,
            half_period,
            second,
            first_weight,
            second_weight,
            position,
            velocity,
            pace: Pace::new(0, 0..0),
        }
    }

    /// The planned velocity of a tick.
    fn planned(&self, tick: i64) -> i64 {
        if tick >= self.ticks {
            self.last + (tick - self.ticks) * self.change_after
        } else if tick <= self.rise {
            self.first + tick * self.up
        } else if tick + self.fall >= self.ticks {
            self.last + (self.ticks - tick) * self.down
        } else if tick - self.rise <= self.raised {
            self.cruise + 1
        } else {
            self.cruise
        }
    }

    /// The pace of the planned velocity at one tick alone.
    fn one_tick(&self, tick: i64) -> Pace {
        Pace::new(self.planned(tick + 1) - self.planned(tick), tick..tick + 1)
    }

    /// The pace of the planned velocity at a tick.
    fn planned_pace(&self, tick: i64) -> Pace {
        if tick >= self.ticks {
            Pace::new(self.change_after, self.ticks..i64::from(LATEST) + 1)
        } else if tick > self.rise {
            self.later_pace(tick)
        } else if tick < self.rise && self.rise < self.ticks {
            Pace::new(self.up, 0..self.rise)
        } else {
            self.one_tick(tick)
        }
    }

    /// The same after the ramp from the start and before the landing.
    fn later_pace(&self, tick: i64) -> Pace {
        if tick + self.fall >= self.ticks {
            return Pace::new(-self.down, (self.ticks - self.fall).max(self.rise + 1)..self.ticks);
        }
        let last = self.ticks - self.fall - 1;
        let raised = last.min(self.rise + self.raised);
        if tick < raised {
            Pace::new(0, self.rise + 1..raised)
        } else if raised < tick && tick < last {
            Pace::new(0, raised + 1..last)
        } else {
            self.one_tick(tick)
        }
    }

    /// The same of the planned velocity some ticks before.
    fn pace_behind(&self, delay: i64, tick: i64) -> Pace {
        if tick < delay {
            return Pace::new(0, 0..delay);
        }
        let Pace { change, ticks } = self.planned_pace(tick - delay);
        Pace::new(change, ticks.start + delay..ticks.end + delay)
    }

    /// The pace of the blend some ticks before.
    fn blended_pace(&self, delay: i64, tick: i64) -> Pace {
        let ahead = self.pace_behind(delay, tick);
        let behind = self.pace_behind(delay + self.half_period, tick);
        Pace::common(self.first_weight * ahead.change + self.second_weight * behind.change, &ahead, &behind)
    }

    /// The pace of the velocity after the blends.
    fn pace_at(&self, tick: i64) -> Pace {
        let once = self.blended_pace(0, tick);
        match self.second {
            None => once,
            Some(delay) => {
                let again = self.blended_pace(delay, tick);
                Pace::common(once.change + again.change, &once, &again)
            }
        }
    }

    /// The three cells of the row at a tick, after which the track stands one tick on.
    fn row(&mut self, tick: i64) -> [i64; 3] {
        if !self.pace.ticks.contains(&tick) {
            self.pace = self.pace_at(tick);
        }
        let change = self.pace.change;
        let next = self.velocity + change;
        let cells = [nearest(self.position, 131_072), nearest(self.velocity, 65_536), nearest(change, 65_536)];
        self.position += self.velocity + next;
        self.velocity = next;
        cells
    }
}

fn refusal(number: u32, mask: u32, arrival: u32) -> Answer {
    Answer { number, place: 0, mask, arrival }
}

/// The refusals of one axis, 4 to 6 and 15 to 17.
fn axis_passes(x: &Axis) -> bool {
    let fast = |v: i64| v.unsigned_abs() > u64::from(x.speed_limit);
    let bounded = match x.target {
        Target::Fixed { .. } => true,
        Target::Moving { acceleration, tick, .. } => {
            acceleration.unsigned_abs() <= u64::from(x.acceleration_limit) && tick.unsigned_abs() <= u64::from(LATEST)
        }
    };
    (1..=1 << 20).contains(&x.speed_limit)
        && (1..=1 << 16).contains(&x.acceleration_limit)
        && x.half_period <= 256
        && (1..=128).contains(&weight_of(x))
        && x.second.map_or(true, |second| (1..=256).contains(&second))
        && RAIL.contains(&x.start_position)
        && !fast(x.start_velocity)
        && RAIL.contains(&x.target.position())
        && !fast(x.target.velocity())
        && bounded
        && (x.second.is_none() || x.target.acceleration() == 0)
        && !x.target.flies()
}

/// Refusals 1, 3 to 6 and 15 to 17 are tested as the library tests them, and 13 where windows are
/// brought; the jobs that are timed pass.
fn passes(job: &Job) -> bool {
    (1..=63).contains(&job.mask)
        && job.asked <= LATEST
        && job.set().all(|(_, x)| axis_passes(x))
        && job.windows.as_ref().map_or(true, |windows| windows.refused().is_none())
}

/// The arrival of a job that no earlier refusal comes to, or the refusal 8 or 9. No job
/// with windows asks for an arrival.
fn arrival(job: &Job, engine: Engine) -> Result<u32, Answer> {
    let least = |job: &Job| match engine {
        Engine::Areas => least_arrival(job),
        Engine::Ticks => least_by_ticks(job),
    };
    let failing =
        |fails: &dyn Fn(&Axis) -> bool| -> u32 { job.set().filter(|(_, axis)| fails(axis)).map(|(i, _)| 1 << i).sum() };
    if job.asked == 0 {
        let alone = |axis: &Axis| match engine {
            Engine::Areas => reaches_some(axis),
            Engine::Ticks => least(&Job { mask: 1, asked: 0, axes: [*axis; 6], windows: None }).is_some(),
        };
        return least(job).ok_or_else(|| refusal(9, failing(&|axis| !alone(axis)), 0));
    }
    match failing(&|axis| !reaches(engine, axis, job.asked)) {
        0 => Ok(job.asked),
        unable => Err(refusal(8, unable, 0)),
    }
}

/// Plans a job that no refusal before 8 comes to.
pub fn plan(job: &Job, engine: Engine, table: &mut [i64]) -> Answer {
    assert!(passes(job));
    let arrival = match arrival(job, engine) {
        Ok(arrival) => arrival,
        Err(refused) => return refused,
    };
    let width = 3 * job.count();
    if table.len() < width * (arrival as usize + 1) {
        return refusal(10, 0, arrival);
    }
    let mut tracks: Vec<Track> = job.set().map(|(_, axis)| Track::new(engine, axis, arrival)).collect();
    for (tick, row) in table.chunks_exact_mut(width).take(arrival as usize + 1).enumerate() {
        for (track, cells) in tracks.iter_mut().zip(row.chunks_exact_mut(3)) {
            cells.copy_from_slice(&track.row(tick as i64));
        }
    }
    refusal(0, job.mask, arrival)
}
