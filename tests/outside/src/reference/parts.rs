//! Rows in parts: as many whole rows as the table holds, from a first one on, up to the arrival's.

use super::job::refusal;
use super::words::decode;
use super::{Answer, Job};

impl Job {
    /// The answer before refusal 10 and the number of rows written, of a job that passes the mask's
    /// check.
    fn part_checked(&self, first: u32, table: &mut [i64]) -> (Answer, u32) {
        let arrival = match self.arrival() {
            Ok(arrival) => arrival,
            Err(refused) => return (refused, 0),
        };
        let answer = Answer { number: 0, place: 0, mask: self.mask, arrival: arrival as u32 };
        let motions = self.motions(arrival);
        let mut rows = 0;
        for (row, tick) in table.chunks_exact_mut(3 * self.count()).zip(i64::from(first)..=arrival) {
            for (cells, (axis, planned)) in row.chunks_exact_mut(3).zip(&motions) {
                cells.copy_from_slice(&planned.exact(axis, tick).cells());
            }
            rows += 1;
        }
        (answer, rows)
    }

    /// The call with typed values.
    pub fn part(&self, first: u32, table: &mut [i64]) -> (Answer, u32) {
        if !(1..=63).contains(&self.mask) {
            return (refusal(1, 0, 0, 0), 0);
        }
        self.part_checked(first, table)
    }
}

/// The call with job words.
pub fn part_of_words(words: &[u32], first: u32, table: &mut [i64]) -> (Answer, u32) {
    match decode(words) {
        Ok(job) => job.part_checked(first, table),
        Err(refused) => (refused, 0),
    }
}
