//! Random jobs: near and quick, far and long, and damaged ones, as typed values
//! and as words; and random tours.

mod damaged;
mod dampings;
mod drawn;
mod edge;
mod rail;
mod spelled;
mod tours;
mod windows;

use crate::random::Random;
pub use crate::reference::word;
use crate::reference::{Job, RAIL};

pub use damaged::{damaged_job, with_signed, with_unsigned, SIGNED_ENDS, SINGLE_ENDS, UNSIGNED_ENDS};
pub use dampings::ratio_ends;
pub use drawn::{chasing_job, job, late_job, old_job};
pub use edge::edge_job;
pub use spelled::{damaged_words, stray_words, words, CASE_C};
pub use tours::{damaged_tour, tour};
pub use windows::{badly_windowed, late_windowed, windowed};

/// How far a job's axes move and how long they may take.
#[derive(Clone, Copy, Debug)]
pub enum Reach {
    /// Some ticks: small limits and small distances.
    Near,
    /// Some tens of ticks: limits of every size, and distances that fit them.
    Quick,
    /// An asked arrival of any size, and distances that fit it.
    Asked,
    /// No asked arrival, and distances that take up to thousands of ticks: a long search.
    Far,
    /// Any distance and no asked arrival: mostly out of reach.
    Anywhere,
}

/// The nearest position on the rail.
fn on_rail(position: i64) -> i64 {
    position.clamp(*RAIL.start(), *RAIL.end())
}

/// A job that passes the checks of its values: in turns 0 to 3 one that chases, at an edge, quick
/// or with windows, and then near ones.
pub fn in_turn(random: &mut Random, turn: usize) -> Job {
    match turn {
        0 => chasing_job(random),
        1 => edge_job(random),
        2 => job(random, Reach::Quick),
        3 => {
            let job = job(random, Reach::Near);
            windowed(random, &job)
        }
        _ => job(random, Reach::Near),
    }
}
