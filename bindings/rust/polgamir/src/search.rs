//! Planning between servo turns: the search for a job's arrival, a budget of candidates at a time.

use crate::job::Job;
use crate::library;
use crate::refusal::Refusal;

/// What a search reports.
#[derive(Debug, Clone, Copy, PartialEq, Eq, Hash)]
pub enum Report {
    /// The least tick from the first candidate on, up to 4,096 and within the budget,
    /// that every axis reaches and that fits a window where the job has windows. Where
    /// there is one it is always found.
    Found {
        /// The tick.
        arrival: u32,
    },
    /// There is none within the budget, and a candidate is left.
    Spent {
        /// The candidate to go on with.
        next: u32,
    },
    /// There is none, and no candidate is left.
    None,
}

/// What a search gives: its report, and how many candidates it tried.
#[derive(Debug, Clone, Copy, PartialEq, Eq, Hash)]
pub struct Searched {
    /// What was found.
    pub report: Report,
    /// The tick found less the first candidate plus one; or the budget; or all that were left up to
    /// 4,096.
    pub tried: u32,
}

/// A search as [`Job::search`], for the job that words hold.
///
/// # Errors
///
/// The first refusal in checking order: those of [`plan_words`](crate::plan_words)
/// before 8, but for 3, and then 18.
pub fn search_words(words: &[u32], first: u32, budget: u32) -> Result<Searched, Refusal> {
    library::search_words(words, first, budget).map_err(Refusal::from_answer)
}

impl Job {
    /// Tries the ticks from a first candidate on, at most as many as the budget says, for the
    /// arrival of this job. The arrival that the job asks for is not looked at. Candidates outside
    /// the job's windows are tried too. No candidate past the budget is looked at, so that the time
    /// of a call is bounded by a constant and the budget.
    ///
    /// Begin at 1 and, as long as the budget is spent, go on at the next candidate, with any
    /// budgets: this ends in the tick, or in the none, of one undivided search, and the numbers
    /// tried add up to that search's. A job that asks for the tick found is accepted.
    ///
    /// ```
    /// # use polgamir::{Axis, Damping, RestPoint, Target};
    /// # let start = RestPoint { position: 0, velocity: 0 };
    /// # let target = Target::still(900);
    /// # let (damping, second_half_period) = (Damping::NONE, None);
    /// # let pan = Axis {
    /// #     start, speed_limit: 40, acceleration_limit: 2, half_period: 12, damping, second_half_period, target,
    /// # };
    /// use polgamir::{Arrival, Job, Refusal, Report};
    ///
    /// let mut job = Job::earliest().with_axis(0, pan);
    /// let mut first = 1;
    /// let found = loop {
    ///     // in each turn of the servo
    ///     match job.search(first, 20)?.report {
    ///         Report::Found { arrival } => break Some(arrival),
    ///         Report::Spent { next } => first = next,
    ///         Report::None => break None,
    ///     }
    /// };
    /// # assert_eq!(found, job.arrival_found().ok());
    /// if let Some(tick) = found {
    ///     job.arrival = Arrival::from(tick);
    ///     assert_eq!(job.plan()?.arrival(), tick);
    /// }
    /// # Ok::<(), Refusal>(())
    /// ```
    ///
    /// # Errors
    ///
    /// The first refusal in checking order: those of [`plan()`](crate::plan()) up to 13, but for 3,
    /// and then 18, for a first candidate of 0 or above 4,097.
    pub fn search(&self, first: u32, budget: u32) -> Result<Searched, Refusal> {
        library::search_job(self, first, budget).map_err(Refusal::from_answer)
    }
}
