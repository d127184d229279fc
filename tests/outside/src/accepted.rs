//! The axes of random jobs that the library accepts, with the rows that it writes for them.

use crate::jobs;
use crate::library;
use crate::random::Random;
use crate::reference::{Axis, Job, Order};

/// Plans `count` jobs, by typed values or words and in either order, but for those with a long
/// search, and looks at every axis of the accepted ones: its cells, a row for each tick from 0 on.
pub fn each_axis(
    seed: u64,
    draw: fn(&mut Random) -> Job,
    count: usize,
    mut look: impl FnMut(&mut Random, &Axis, &[[i64; 3]]),
) {
    let mut random = Random::new(seed);
    let mut table = vec![0; 3 * 6 * 4_097];
    for _ in 0..count {
        let job = draw(&mut random);
        if job.searches_past(100) {
            continue;
        }
        let order = random.pick(&[Order::Forwards, Order::Backwards]);
        let answer = if random.once_in(2) {
            library::plan_filled_in(order, &job, 0, &mut table)
        } else {
            library::plan_words_in(order, &jobs::words(&job), &mut table)
        };
        if answer.number != 0 {
            continue;
        }
        for (rank, (_, axis)) in job.by_hand().set().enumerate() {
            look(&mut random, axis, &rows_of(&table, order, job.count(), rank, answer.arrival as usize));
        }
    }
}

/// The cells of one axis of a table, a row for each tick from 0 on.
fn rows_of(table: &[i64], order: Order, axes: usize, rank: usize, arrival: usize) -> Vec<[i64; 3]> {
    let row = |k: usize| table[3 * (axes * order.place(k, arrival) + rank)..][..3].try_into().unwrap();
    (0..=arrival).map(row).collect()
}
