//! Request 2.12: planning between servo turns, a search from a first candidate within a budget.

use super::job::refusal;
use super::{decode, Answer, Job, LATEST};

/// What a search reports.
#[derive(Clone, Copy, Debug, PartialEq, Eq)]
pub enum Report {
    /// The tick.
    Found(u32),
    None,
    /// The next candidate.
    Spent(u32),
}

/// A report, and how many candidates were tried.
#[derive(Clone, Copy, Debug, PartialEq, Eq)]
pub struct Searched {
    pub report: Report,
    pub tried: u32,
}

/// What the call returns. The method leaves the fields of an answer beside a report free.
pub type Search = Result<Searched, Answer>;

impl Job {
    /// The call with typed values. The asked arrival is read as 0.
    pub fn search(&self, first: u32, budget: u32) -> Search {
        let job = Job { asked: 0, ..*self };
        if !(1..=63).contains(&job.mask) {
            return Err(refusal(1, 0, 0, 0));
        }
        if let Some(refused) = job.refused() {
            return Err(refused);
        }
        let (from, beyond) = (i64::from(first), LATEST + 1);
        if from == 0 || from > beyond {
            return Err(refusal(18, 0, 0, 0));
        }
        // The candidates that the budget allows end before this one.
        let end = beyond.min(from + i64::from(budget));
        let job = job.by_hand();
        Ok(match (from..end).find(|&tick| job.suits(tick)) {
            Some(tick) => Searched { report: Report::Found(tick as u32), tried: (tick - from + 1) as u32 },
            None if end == beyond => Searched { report: Report::None, tried: (beyond - from) as u32 },
            None => Searched { report: Report::Spent(end as u32), tried: budget },
        })
    }
}

/// The call with job words.
pub fn search_words(words: &[u32], first: u32, budget: u32) -> Search {
    decode(words)?.search(first, budget)
}

#[cfg(test)]
mod tests {
    use super::*;
    use crate::jobs;
    use crate::plain::{asked, flying, job, one, to};
    use crate::reference::{Axis, Windows};

    const NOWHERE: Axis = Axis { speed_limit: 1, ..FAR };
    const FAR: Axis =
        Axis { target: crate::reference::Target::Fixed { position: 100_000_000, velocity: 0 }, ..crate::plain::PLAIN };

    fn found(tick: u32, tried: u32) -> Search {
        Ok(Searched { report: Report::Found(tick), tried })
    }

    fn none(tried: u32) -> Search {
        Ok(Searched { report: Report::None, tried })
    }

    fn spent(next: u32, tried: u32) -> Search {
        Ok(Searched { report: Report::Spent(next), tried })
    }

    #[test]
    fn settled_reports() {
        let nowhere = one(NOWHERE);
        assert_eq!(nowhere.search(4_096, 1), none(1));
        assert_eq!(nowhere.search(4_096, 0), spent(4_096, 0));
        assert_eq!(nowhere.search(4_097, 0), none(0));
        assert_eq!(nowhere.search(4_097, u32::MAX), none(0));
        assert_eq!(nowhere.search(1, 4_095), spent(4_096, 4_095));
        assert_eq!(nowhere.search(1, 4_096), none(4_096));
        assert_eq!(nowhere.search(4_000, u32::MAX), none(97));
        let b = one(to(4));
        assert_eq!(b.search(1, 3), spent(4, 3));
        assert_eq!(b.search(1, 4), found(4, 4));
        assert_eq!(b.search(4, 1), found(4, 1));
        assert_eq!(b.search(4, 0), spent(4, 0));
        assert_eq!(b.search(9, 7), found(9, 1));
        assert_eq!(b.search(4_096, u32::MAX), found(4_096, 1));
    }

    /// Candidates outside windows count as tried, and the asked arrival is not looked at.
    #[test]
    fn windows_and_asked_arrivals() {
        let windowed = Job { windows: Some(Windows::new(0, &[(1, 3), (9, 12)])), ..asked(one(to(4)), 4_097) };
        assert_eq!(windowed.search(1, 100), found(9, 9));
        assert_eq!(windowed.search(5, 4), spent(9, 4));
        assert_eq!(windowed.search(12, 9_999), none(4_085));
    }

    #[test]
    fn eighteen() {
        let refused = |job: Job, first: u32| job.search(first, 5).unwrap_err();
        let b = one(to(4));
        for first in [0, 4_098, 1 << 31, u32::MAX] {
            assert_eq!(refused(b, first), refusal(18, 0, 0, 0));
        }
        assert_eq!(refused(Job { windows: Some(Windows::new(0, &[])), ..b }, 0), refusal(13, 0, 0, 0));
        assert_eq!(refused(Job { mask: 0, ..b }, 0), refusal(1, 0, 0, 0));
        assert_eq!(refused(job(&[to(4), flying(10)]), 0), refusal(17, 1, 0, 0));
        assert_eq!(refused(asked(b, 4_097), 0), refusal(18, 0, 0, 0));
        assert_eq!(search_words(&jobs::CASE_C[..10], 0, 5), Err(refusal(2, 10, 0, 0)));
        assert_eq!(search_words(&jobs::CASE_C, 1, 5), found(2, 2));
    }
}
