//! The calls that write the rows from the arrival backwards: the answer and each row are those of
//! the forward calls, and the table has the arrival's row first and row 0 last.

mod common;

use common::{case_c, try_jobs, Random, CASE_C_WORDS};
use polgamir::{plan, plan_backwards, plan_words, plan_words_backwards, Accepted, Job, Order, Plan, Refusal};

/// The rows of case C as docs/METHOD.md prints them, from the last to the first.
const CASE_C_BACKWARDS: [i64; 15] = [256, 0, 0, 214, 85, -85, 129, 85, 0, 43, 86, -1, 0, 0, 86];

#[test]
fn case_c_backwards() {
    let mut table = [7; 16];
    assert_eq!(plan_words_backwards(&CASE_C_WORDS, &mut table).map(|accepted| accepted.arrival()), Ok(4));
    assert_eq!((&table[..15], table[15]), (&CASE_C_BACKWARDS[..], 7));
    let plan = case_c().plan_backwards().expect("case C");
    assert_eq!((plan.order(), plan.cells()), (Order::Backwards, &CASE_C_BACKWARDS[..]));
    let mut short = [7; 14];
    assert_eq!(plan_backwards(&case_c(), &mut short), Err(Refusal::TableTooShort { arrival: 4 }));
    assert_eq!(short, [7; 14]);
}

#[test]
fn rows_are_read_by_tick_in_either_order() {
    let (forwards, backwards) = (case_c().plan().expect("case C"), case_c().plan_backwards().expect("case C"));
    assert_eq!(backwards.rows().map(|row| row.tick()).collect::<Vec<_>>(), [0, 1, 2, 3, 4]);
    assert!(forwards.rows().eq(backwards.rows()) && forwards.rows().rev().eq(backwards.rows().rev()));
    assert!((0..6).all(|tick| forwards.row(tick) == backwards.row(tick)));
    assert_eq!((backwards.row(5), backwards.row(u32::MAX)), (None, None));
    assert_eq!(backwards.rows().next_back().map(|row| row.cells()), Some(&backwards.cells()[..3]));
}

/// The plan of a job in both orders, into tables with seven cells too many, which stay as they
/// were.
fn both_orders(job: &Job) -> Option<(Plan, Plan)> {
    let lent = vec![i64::MIN; job.enough_cells() + 7];
    let (mut table, mut turned) = (lent.clone(), lent.clone());
    let (forwards, backwards) = (plan(job, &mut table), plan_backwards(job, &mut turned));
    let about = |accepted: Accepted| (accepted.arrival(), accepted.axes());
    assert_eq!(forwards.map(about), backwards.map(about), "the answers are the same");
    let written = backwards.map_or(0, |accepted| accepted.cells().len());
    assert_eq!(turned[written..], lent[written..]);
    assert_eq!(job.plan_backwards().map(Plan::into_cells).unwrap_or_default(), turned[..written]);
    Some((job.plan().ok()?, job.plan_backwards().ok()?))
}

#[test]
fn each_row_is_the_forward_call_s_row_for_its_tick() {
    try_jobs(0x2130_0000_0000_0213, |_, _, job| {
        let Some((forwards, backwards)) = both_orders(job) else { return false };
        assert_eq!((forwards.order(), backwards.order()), (Order::Forwards, Order::Backwards));
        assert!(forwards.rows().eq(backwards.rows()), "by tick the rows are the same");
        let width = 3 * job.mask().count_ones() as usize;
        assert!(forwards.cells().rchunks_exact(width).eq(backwards.cells().chunks_exact(width)));
        true
    });
}

#[test]
fn words_and_jobs_are_planned_alike() {
    let mut random = Random(0x2130_0000_0000_0312);
    for _ in 0..300 {
        let job = random.plannable_job();
        let words = job.to_words().expect("numbers that fit");
        let (mut typed, mut worded) = (vec![0; job.enough_cells()], vec![0; job.enough_cells()]);
        assert_eq!(plan_words_backwards(&words, &mut worded), plan_backwards(&job, &mut typed));
        let rows = |accepted: Accepted| accepted.rows().map(|row| row.cells().to_vec()).collect::<Vec<_>>();
        let backwards = plan_words_backwards(&words, &mut worded).map(rows);
        assert_eq!(plan_words(&words, &mut typed).map(rows), backwards);
    }
}
