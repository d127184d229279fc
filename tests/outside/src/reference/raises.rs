//! Request 2.10: the smallest change that makes an asked arrival which was turned down with 8.

use super::{decode, Answer, Axis, Job, Planned};

/// What is added to one limit alone.
#[derive(Clone, Copy, Debug, PartialEq, Eq)]
pub enum Raise {
    /// To M.
    Acceleration(u32),
    /// To L.
    Speed(u32),
}

impl Raise {
    pub fn amount(self) -> u32 {
        match self {
            Raise::Acceleration(amount) | Raise::Speed(amount) => amount,
        }
    }

    /// A raise of the same limit by another amount.
    pub fn by(self, amount: u32) -> Raise {
        match self {
            Raise::Acceleration(_) => Raise::Acceleration(amount),
            Raise::Speed(_) => Raise::Speed(amount),
        }
    }

    /// The axis with the raised limit.
    pub fn of(self, axis: &Axis) -> Axis {
        match self {
            Raise::Acceleration(amount) => Axis { acceleration_limit: axis.acceleration_limit + amount, ..*axis },
            Raise::Speed(amount) => Axis { speed_limit: axis.speed_limit + amount, ..*axis },
        }
    }

    /// The amount that brings the limit to the end of its range.
    pub fn most(self, axis: &Axis) -> u32 {
        match self {
            Raise::Acceleration(_) => 65_536 - axis.acceleration_limit,
            Raise::Speed(_) => 1_048_576 - axis.speed_limit,
        }
    }

    /// The least raise of this limit for which an axis that does not arrive does so, if
    /// there is one in its range. A higher limit forbids no list that a lower one allows,
    /// so that the interval may be halved.
    fn least(self, axis: &Axis, arrival: i64) -> Option<Raise> {
        let enough = |amount: u32| Planned::reaching(&self.by(amount).of(axis), arrival).is_some();
        let (mut short, mut beyond) = (0, self.most(axis));
        if !enough(beyond) {
            return None;
        }
        while beyond - short > 1 {
            let middle = short + (beyond - short) / 2;
            if enough(middle) {
                beyond = middle;
            } else {
                short = middle;
            }
        }
        Some(self.by(beyond))
    }
}

/// The raises of one axis: the smaller first, that of M first if they are
/// equal, and none that does not exist.
fn raises(axis: &Axis, arrival: i64) -> Vec<Raise> {
    let both = [Raise::Acceleration(0), Raise::Speed(0)];
    let mut some: Vec<Raise> = both.into_iter().filter_map(|limit| limit.least(axis, arrival)).collect();
    some.sort_by_key(|raise| raise.amount());
    some
}

/// What the call returns: the planning answer, and the named axes with their raises.
pub type Raised = (Answer, Vec<(usize, Vec<Raise>)>);

impl Job {
    fn raises_after(&self, answer: Answer) -> Raised {
        let named = if answer.number == 8 { answer.mask } else { 0 };
        let asked = i64::from(self.asked);
        let job = self.by_hand();
        (answer, job.set().filter(|(i, _)| named >> i & 1 == 1).map(|(i, axis)| (i, raises(axis, asked))).collect())
    }

    /// The call with typed values.
    pub fn raises(&self) -> Raised {
        self.raises_after(self.answer_before_ten())
    }
}

/// The call with job words.
pub fn raises_of_words(words: &[u32]) -> Raised {
    match decode(words) {
        Ok(job) => job.raises(),
        Err(refused) => (refused, Vec::new()),
    }
}

#[cfg(test)]
mod tests {
    use super::*;
    use crate::jobs;
    use crate::plain::{asked, job, one, to, PLAIN};
    use crate::random::Random;
    use crate::reference::{Target, Windows};

    const M: fn(u32) -> Raise = Raise::Acceleration;
    const L: fn(u32) -> Raise = Raise::Speed;

    /// The raises of the one axis of a job that is turned down with 8.
    fn of_one(job: Job) -> Vec<Raise> {
        let (answer, raises) = job.raises();
        assert_eq!((answer.number, answer.place, answer.mask, answer.arrival), (8, 0, 1, 0));
        assert_eq!((raises.len(), raises[0].0), (1, 0));
        raises[0].1.clone()
    }

    #[test]
    fn settled_raises() {
        assert_eq!(of_one(asked(one(to(4)), 3)), [M(1)]);
        let slow = Axis { speed_limit: 2, ..to(9) };
        assert_eq!(of_one(asked(one(slow), 6)), [M(1), L(1)]);
        let moving = Axis { speed_limit: 3, start_velocity: 2, ..to(22) };
        assert_eq!(of_one(asked(one(moving), 8)), [L(1), M(2)]);
        let swaying = Axis { half_period: 3, ..to(4) };
        assert_eq!(of_one(asked(one(swaying), 3)), []);
    }

    #[test]
    fn windows_are_not_heeded() {
        let with = |tick| Job { windows: Some(Windows::new(0, &[(6, 7)])), ..asked(one(to(4)), tick) };
        assert_eq!(of_one(with(3)), [M(1)]);
        let (answer, raises) = with(4).raises();
        assert_eq!((answer.number, answer.mask, raises.len()), (8, 0, 0));
    }

    #[test]
    fn any_other_job_gets_its_planning_answer() {
        let answer = |job: Job| {
            let (Answer { number, place, mask, arrival }, raises) = job.raises();
            assert!(raises.is_empty());
            (number, place, mask, arrival)
        };
        assert_eq!(answer(one(to(4))), (0, 0, 1, 4));
        assert_eq!(answer(asked(one(to(4)), 4)), (0, 0, 1, 4));
        assert_eq!(answer(asked(one(to(4)), 4_097)), (3, 1, 0, 0));
        assert_eq!(answer(one(Axis { speed_limit: 1, ..to(100_000_000) })), (9, 0, 1, 0));
        assert_eq!(answer(Job { mask: 0, ..one(to(4)) }), (1, 0, 0, 0));
        assert!(raises_of_words(&jobs::CASE_C[..10]).1.is_empty());
        assert_eq!(raises_of_words(&jobs::CASE_C[..10]).0.number, 2);
    }

    /// Named axes only, lowest first.
    #[test]
    fn several_axes() {
        let still = Axis { half_period: 3, ..to(4) };
        let (answer, raises) = asked(job(&[to(4), to(1), still, Axis { start_velocity: 1, ..to(6) }]), 3).raises();
        assert_eq!((answer.number, answer.mask), (8, 0b1101));
        // With M = 2 axis 3 covers 5.5 in velocities 1, 3, 2, 0; with M = 3 it covers 7.5 in 1, 4,
        // 3, 0.
        assert_eq!(raises, [(0, vec![M(1)]), (2, vec![]), (3, vec![M(2)])]);
    }

    /// Tried one after the other, the first raise that is enough is the one that is found.
    #[test]
    fn least_by_trying_all() {
        let mut random = Random::new(47);
        let mut found = [0; 3];
        for _ in 0..3_000 {
            let speed = random.between(1, 9);
            let velocity = random.between(-speed, speed);
            let axis = Axis {
                speed_limit: speed as u32,
                acceleration_limit: random.between(1, 3) as u32,
                start_velocity: random.between(-speed, speed),
                half_period: random.between(0, 2) as u32,
                target: Target::Moving { position: random.between(-60, 60), velocity, acceleration: 0, tick: 5 },
                ..PLAIN
            };
            let arrival = random.between(1, 9);
            if Planned::reaching(&axis, arrival).is_some() {
                continue;
            }
            for limit in [M(0), L(0)] {
                let tried = (1..=300).find(|&n| Planned::reaching(&limit.by(n).of(&axis), arrival).is_some());
                assert_eq!(limit.least(&axis, arrival).map(Raise::amount), tried, "{axis:?} at {arrival}");
                found[tried.map_or(0, |n| if n == 1 { 1 } else { 2 })] += 1;
            }
        }
        assert!(found.iter().all(|&n| n > 100), "{found:?}");
    }
}
