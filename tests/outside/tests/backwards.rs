//! Request 2.13, rows from arrival backwards: the library's two calls give one answer, and the rows
//! of the one are those of the other from the last to the first, for every grid.

use outside::jobs;
use outside::library;
use outside::plain::{after, asked, job, one, to};
use outside::random::Random;
use outside::reference::{Answer, Axis, Damping, Job, Order};

/// Both calls, from typed values or from words, each with `cells` cells lent.
fn both(job: &Job, from_words: bool, cells: usize) -> (Answer, [Vec<i64>; 2]) {
    let table: Vec<i64> = (0..cells as i64).map(|i| !i).collect();
    let mut tables = [table.clone(), table];
    let words = jobs::words(job);
    let mut call = |order: Order, at: usize| {
        if from_words {
            library::plan_words_in(order, &words, &mut tables[at])
        } else {
            library::plan_filled_in(order, job, 0, &mut tables[at])
        }
    };
    let answer = call(Order::Forwards, 0);
    assert_eq!(call(Order::Backwards, 1), answer, "{job:?}");
    (answer, tables)
}

/// The rows are reversed, not their cells; row N is at cell 0, and what comes
/// after the last row is as it was.
fn reversed(job: &Job, from_words: bool, cells: usize) -> Answer {
    let (answer, [forwards, backwards]) = both(job, from_words, cells);
    if answer.number != 0 {
        let untouched: Vec<i64> = (0..cells as i64).map(|i| !i).collect();
        assert!(forwards == untouched && backwards == untouched, "{job:?}");
        return answer;
    }
    let width = 3 * answer.mask.count_ones() as usize;
    let written = width * (answer.arrival as usize + 1);
    let rows: Vec<&[i64]> = forwards[..written].chunks(width).collect();
    let others: Vec<&[i64]> = backwards[..written].chunks(width).rev().collect();
    assert_eq!(rows, others, "{job:?}");
    assert_eq!(forwards[written..], backwards[written..], "{job:?}");
    answer
}

#[test]
fn rows_of_random_jobs_are_reversed() {
    let mut random = Random::new(81);
    let mut numbers = [0; 19];
    let mut grids = [0; 3];
    for n in 0..6_000 {
        let job = jobs::in_turn(&mut random, n % 6);
        if job.searches_past(200) {
            continue;
        }
        let from_words = job.windows.is_none() && random.once_in(2);
        let cells = if random.once_in(6) { random.below(2_000) } else { 3 * job.count() * 901 };
        let answer = reversed(&job, from_words, cells);
        numbers[answer.number as usize] += 1;
        for (_, axis) in job.by_hand().set().filter(|_| answer.number == 0) {
            let finer = axis.target.acceleration() != 0 && axis.half_period > 0 && axis.weight() != 128;
            grids[if axis.second.is_some() { 2 } else { usize::from(finer) }] += 1;
        }
    }
    eprintln!("by number {numbers:?}, axes by grid {grids:?}");
    assert!(numbers[0] > 1_500 && numbers[8] > 100 && numbers[10] > 50, "{numbers:?}");
    assert!(grids.iter().all(|&n| n > 100), "{grids:?}");
}

#[test]
fn a_case_of_each_grid() {
    // Case C.
    let (answer, [_, backwards]) = both(&asked(one(to(1)), 4), true, 17);
    assert_eq!((answer.number, answer.arrival), (0, 4));
    assert_eq!(backwards, [256, 0, 0, 214, 85, -85, 129, 85, 0, 43, 86, -1, 0, 0, 86, !15, !16]);
    let damped = |axis: Axis, weight| Axis { damping: Damping::Weight(weight), ..axis };
    // 1/65,536 unit.
    let chasing = damped(Axis { half_period: 2, ..after(0, 0, 1, 20) }, 100);
    let (_, [_, backwards]) = both(&asked(one(chasing), 20), false, 63);
    assert_eq!(backwards[..9], [0, 0, 256, 28, -56, 56, 148, -183, 127]);
    assert_eq!(backwards[54..], [16, 11, 7, 5, 11, 0, 0, 0, 11]);
    // 1/512 unit, and two axes in a row.
    let swaying = damped(Axis { half_period: 1, second: Some(2), ..to(1) }, 100);
    let (_, [_, backwards]) = both(&one(swaying), true, 18);
    let rows = [[256, 0, 0], [231, 50, -50], [167, 78, -28], [103, 50, 28], [39, 78, -28], [0, 0, 78]];
    assert_eq!(backwards, rows.concat());
    let (answer, [_, backwards]) = both(&job(&[swaying, Axis { start_position: 5, ..to(5) }]), true, 36);
    assert_eq!(answer.arrival, 5);
    let with_second: Vec<i64> = rows.iter().flat_map(|row| [*row, [1280, 0, 0]].concat()).collect();
    assert_eq!(backwards, with_second);
}

#[test]
fn tables_of_every_length() {
    let job = Job { mask: 0b100101, ..asked(job(&[Axis { half_period: 2, ..to(3) }; 6]), 7) };
    for cells in 0..120 {
        let answer = reversed(&job, cells % 2 == 0, cells);
        assert_eq!(answer.number, if cells < 3 * 3 * 8 { 10 } else { 0 });
    }
}

#[test]
fn the_largest_table() {
    let axis = |i: i64| Axis { start_velocity: i - 3, half_period: 50 * i as u32, ..after(7, 3, 0, 2) };
    let job = asked(job(&[0, 1, 2, 3, 4, 5].map(axis)), 4_096);
    assert_eq!(reversed(&job, false, 73_746).number, 0);
    assert_eq!(reversed(&job, true, 73_745).number, 10);
}
