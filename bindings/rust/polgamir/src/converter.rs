//! The converter of old jobs, whose fixed targets may have a velocity.

use crate::refusal::{Answer, Refusal};
use crate::{library, AXES};

/// Turns the words of an old job into words of a job whose fixed targets are all at rest: a fixed
/// target with a velocity becomes a moving one of acceleration 0 at the asked arrival. All other
/// words are copied. The planner gives the converted job the answer and the table that the old job
/// had. Whether the asked arrival can be reached is not looked at.
///
/// ```
/// use polgamir::{convert, Job, Refusal, State, Target};
///
/// let old = [
///     0x10000001, 0x20000027, 0x30000000, 0x4000000A, 0x50000014, 0x60000001, 0x70000000, 0x80000080,
///     0x9000000A, 0xA000000A, 0xF0000000,
/// ];
/// let job = Job::from_words(&convert(&old)?).expect("converted words are a job");
/// let target = State { position: 10, velocity: 10, acceleration: 0, tick: 39 };
/// assert_eq!(job.axes[0].map(|axis| axis.target), Some(Target::Moving(target)));
/// assert_eq!(job.plan()?.arrival(), 39);
/// # Ok::<(), Refusal>(())
/// ```
///
/// # Errors
///
/// The first of refusals 1, 2, 14, 3, 4, 5, 15, 6, 16 and 17 that the job gets; 17 only where it
/// seeks the least arrival, for there is no tick to convert to.
pub fn convert(words: &[u32]) -> Result<Vec<u32>, Refusal> {
    let mut converted = vec![0; words.len() + 2 * AXES];
    let written = convert_into(words, &mut converted)?;
    converted.truncate(written);
    Ok(converted)
}

/// The same with lent words: writes the converted job at their start, leaves those after it
/// as they were, and gives back how many were written. Two words more than the old job has
/// for each axis are always enough.
///
/// # Errors
///
/// As [`convert`], and then [`Refusal::WordsTooFew`]. A refused job writes nothing.
pub fn convert_into(words: &[u32], lent: &mut [u32]) -> Result<usize, Refusal> {
    match library::convert(words, lent) {
        Answer { number: 0, place, .. } => Ok(place as usize),
        Answer { number: 10, place, .. } => Err(Refusal::WordsTooFew { needed: place as usize }),
        answer => Err(Refusal::from_answer(answer)),
    }
}
