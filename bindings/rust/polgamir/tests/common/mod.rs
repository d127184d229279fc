//! What the tests share: the field cases' axis, files of the repository, and random numbers
//! that are the same in every run.

#![allow(dead_code)]

use std::fs;
use std::path::{Path, PathBuf};

use polgamir::{Axis, Damping, Job, RestPoint, State, Target, TourAxis};

/// The repository's folder of a name.
pub fn folder(name: &str) -> PathBuf {
    Path::new(env!("CARGO_MANIFEST_DIR")).join("../../..").join(name)
}

/// The text of case C's sheet with a change.
pub fn changed_case_c(from: &str, to: &str) -> String {
    let text = fs::read_to_string(folder("sheets").join("case-c.sheet")).expect("the sheet of case C");
    assert!(text.contains(from), "{from}");
    text.replace(from, to)
}

/// The axis of the field cases: L = 10, M = 1, h = 0, B = 128, from 0 at rest.
pub fn field_axis(target: Target) -> Axis {
    Axis {
        start: RestPoint { position: 0, velocity: 0 },
        speed_limit: 10,
        acceleration_limit: 1,
        half_period: 0,
        damping: Damping::NONE,
        second_half_period: None,
        target,
    }
}

/// The same axis in a tour.
pub const FIELD_TOUR_AXIS: TourAxis = TourAxis {
    start: 0,
    speed_limit: 10,
    acceleration_limit: 1,
    half_period: 0,
    damping: Damping::NONE,
    second_half_period: None,
};

/// Case C: one unit, asked to arrive at tick 4.
pub fn case_c() -> Job {
    Job::arriving_at(4).with_axis(0, field_axis(Target::still(1)))
}

/// The words of case C as docs/METHOD.md prints them.
pub const CASE_C_WORDS: [u32; 11] = [
    0x10000001, 0x20000004, 0x30000000, 0x40000000, 0x5000000A, 0x60000001, 0x70000000, 0x80000080, 0x90000001,
    0xA0000000, 0xF0000000,
];

/// The table of case C as docs/METHOD.md prints it.
pub const CASE_C_TABLE: &str = "arrival 4\n0 0 0 86\n1 43 86 -1\n2 129 85 0\n3 214 85 -85\n4 256 0 0\n";

/// The words of field case F, whose target flies, with an asked arrival.
pub fn case_f(asked: u32) -> [u32; 11] {
    let words = [0x10000001, 0x20000000, 0x30000000, 0x4000000A, 0x50000014, 0x60000001, 0x70000000, 0x80000080];
    let mut all = [0; 11];
    all[..8].copy_from_slice(&words);
    all[8..].copy_from_slice(&[0x9000000A, 0xA000000A, 0xF0000000]);
    all[1] += asked;
    all
}

/// A generator of random numbers (xorshift64*).
pub struct Random(pub u64);

impl Random {
    /// The next 64 bits.
    pub fn bits(&mut self) -> u64 {
        self.0 ^= self.0 >> 12;
        self.0 ^= self.0 << 25;
        self.0 ^= self.0 >> 27;
        self.0.wrapping_mul(0x2545F4914F6CDD1D)
    }

    /// A number from a least to a greatest one.
    pub fn between(&mut self, least: i64, greatest: i64) -> i64 {
        let span = greatest.wrapping_sub(least) as u64;
        match span.checked_add(1) {
            Some(count) => least.wrapping_add((self.bits() % count) as i64),
            None => self.bits() as i64,
        }
    }

    /// True once in so many times.
    pub fn once_in(&mut self, times: i64) -> bool {
        self.between(1, times) == 1
    }

    /// A number from 0 to a greatest one, small ones more often.
    pub fn small(&mut self, greatest: i64) -> i64 {
        let top = self.between(0, greatest);
        self.between(0, top)
    }

    /// An axis of a kind that the planner mostly accepts.
    pub fn plannable_axis(&mut self) -> Axis {
        let speed_limit = 1 + self.small(300);
        let acceleration_limit = 1 + self.small(40);
        let second_weight = if self.once_in(2) { 128 } else { self.between(1, 128) };
        let half_period = if self.once_in(4) { 0 } else { self.small(60) };
        let second_half_period = self.once_in(3).then(|| 1 + self.small(60) as u32);
        let start = RestPoint { position: self.between(-3000, 3000), velocity: self.velocity(speed_limit) };
        let accelerates = second_half_period.is_none() && self.once_in(3);
        let state = State {
            position: self.between(-3000, 3000),
            velocity: self.velocity(speed_limit),
            acceleration: if accelerates { self.between(-1, 1) } else { 0 },
            tick: self.between(-30, 90),
        };
        let target = if self.once_in(3) { Target::still(state.position) } else { Target::Moving(state) };
        Axis {
            start,
            speed_limit: speed_limit as u32,
            acceleration_limit: acceleration_limit as u32,
            half_period: half_period as u32,
            damping: Damping::Weight(second_weight as u32),
            second_half_period,
            target,
        }
    }

    /// A velocity within a limit, at rest half of the time.
    fn velocity(&mut self, limit: i64) -> i64 {
        if self.once_in(2) {
            0
        } else {
            self.between(-limit, limit)
        }
    }

    /// A job with one to six axes, half of the time with one.
    pub fn plannable_job(&mut self) -> Job {
        let mask = if self.once_in(2) { 1 << self.between(0, 5) } else { self.between(1, 63) };
        let mut job = match self.once_in(3) {
            true => Job::arriving_at(self.between(1, 400) as u32),
            false => Job::earliest(),
        };
        for number in (0..6).filter(|number| mask >> number & 1 == 1) {
            job.axes[number] = Some(self.plannable_axis());
        }
        job
    }

    /// A position that job words can hold, in one word or in two, sometimes at an end of what each
    /// holds.
    pub fn any_position(&mut self) -> i64 {
        let end = if self.once_in(2) { 1 << 27 } else { 1 << 34 };
        match self.between(1, 4) {
            1 => end - 1 - i64::from(end == 1 << 27) * self.between(-1, 0),
            2 => -end - i64::from(end == 1 << 27) * self.between(0, 1),
            _ => self.between(-end, end - 1),
        }
    }

    /// An axis of any numbers that job words can hold.
    pub fn any_axis(&mut self) -> Axis {
        let signed = |random: &mut Random| random.between(-(1 << 27), (1 << 27) - 1);
        let unsigned = |random: &mut Random| random.between(0, (1 << 28) - 1) as u32;
        let start = RestPoint { position: self.any_position(), velocity: signed(self) };
        let position = self.any_position();
        let (velocity, acceleration, tick) = (signed(self), signed(self), signed(self));
        let target = match self.once_in(2) {
            true => Target::Fixed(RestPoint { position, velocity }),
            false => Target::Moving(State { position, velocity, acceleration, tick }),
        };
        Axis {
            start,
            speed_limit: unsigned(self),
            acceleration_limit: unsigned(self),
            half_period: unsigned(self),
            damping: Damping::Weight(unsigned(self)),
            second_half_period: self.once_in(2).then(|| unsigned(self)),
            target,
        }
    }

    /// A job of any numbers that job words can hold.
    pub fn any_job(&mut self) -> Job {
        let mask = self.between(1, 63);
        let mut job = Job::arriving_at(self.small((1 << 28) - 1) as u32);
        for number in (0..6).filter(|number| mask >> number & 1 == 1) {
            job.axes[number] = Some(self.any_axis());
        }
        job
    }
}

/// Tries a job in each of 900 rounds, one in three of any numbers, and asks that more than 400 of
/// them are accepted.
pub fn try_jobs(seed: u64, mut accepts: impl FnMut(&mut Random, usize, &Job) -> bool) {
    let mut random = Random(seed);
    let mut accepted = 0;
    for round in 0..900 {
        let job = if round % 3 == 0 { random.any_job() } else { random.plannable_job() };
        accepted += usize::from(accepts(&mut random, round, &job));
    }
    assert!(accepted > 400, "{accepted}");
}
