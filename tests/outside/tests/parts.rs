//! Rows in parts: the library gives what the reference gives, for fuzzed first rows and table
//! sizes, and parts put together are the whole table.

use outside::jobs;
use outside::library;
use outside::plain::{after, asked, job};
use outside::random::Random;
use outside::reference::{self, Axis, Job};

/// Row 0, row N and the rows beside them, rows in between, and rows past every arrival.
fn first_row(random: &mut Random, arrival: u32) -> u32 {
    match random.below(8) {
        0 => 0,
        1 => 1,
        2 => arrival,
        3 => arrival + 1,
        4 => u32::MAX - random.below(2) as u32,
        _ => random.below(arrival as usize + 2) as u32,
    }
}

/// One call from typed values and, where words can say the job, one from words: each as the
/// reference has it.
fn as_the_reference(job: &Job, first: u32, cells: usize) -> (u32, u32) {
    let lent: Vec<i64> = (0..cells as i64).map(|i| !i).collect();
    let mut wanted = lent.clone();
    let (answer, rows) = job.part(first, &mut wanted);
    let mut table = lent.clone();
    assert_eq!(library::part(job, 0, first, &mut table), (answer, rows), "{job:?} from row {first}, {cells} cells");
    assert_eq!(table, wanted, "{job:?} from row {first}");
    if job.windows.is_none() {
        let words = jobs::words(job);
        let (mut table, mut wanted) = (lent.clone(), lent);
        let expected = reference::part_of_words(&words, first, &mut wanted);
        assert_eq!(library::part_of_words(&words, first, &mut table), expected, "{words:x?} from row {first}");
        assert_eq!(table, wanted);
    }
    (answer.number, rows)
}

#[test]
fn random_jobs_in_parts() {
    let mut random = Random::new(303);
    let mut numbers = [0; 19];
    let mut rows_seen = 0;
    for n in 0..2_000 {
        let job = jobs::in_turn(&mut random, n % 5);
        if job.searches_past(200) {
            continue;
        }
        let arrival = job.part(0, &mut []).0.arrival;
        for _ in 0..4 {
            let first = first_row(&mut random, arrival);
            let cells = random.below(40 * 3 * job.count().max(1));
            let (number, rows) = as_the_reference(&job, first, cells);
            numbers[number as usize] += 1;
            rows_seen += rows;
        }
    }
    eprintln!("by number {numbers:?}, {rows_seen} rows");
    assert!(numbers[0] > 2_000 && numbers[8] > 100 && numbers[10] == 0, "{numbers:?}");
    assert!(rows_seen > 10_000, "{rows_seen}");
}

/// Any cutting of rows 0 to N.
fn put_together(random: &mut Random, job: &Job) {
    let mut whole = vec![0; 3 * job.count() * 4_097];
    let answer = library::plan_typed(job, &mut whole);
    assert_eq!(answer.number, 0);
    let width = 3 * job.count();
    let (mut joined, mut first) = (Vec::new(), 0);
    while first <= answer.arrival {
        let mut table = vec![7; width * (1 + random.below(300)) + random.below(width)];
        let (same, rows) = library::part(job, 0, first, &mut table);
        assert_eq!(same, answer);
        assert!(rows > 0);
        joined.extend_from_slice(&table[..width * rows as usize]);
        first += rows;
    }
    assert_eq!(joined, whole[..width * (answer.arrival as usize + 1)]);
}

#[test]
fn parts_of_the_largest_table() {
    let mut random = Random::new(304);
    let axis = |i: i64| Axis { start_velocity: i - 3, half_period: 50 * i as u32, ..after(7, 3, 0, 2) };
    let job = asked(job(&[0, 1, 2, 3, 4, 5].map(axis)), 4_096);
    for _ in 0..20 {
        put_together(&mut random, &job);
    }
}
