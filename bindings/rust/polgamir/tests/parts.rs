//! Rows in parts: the rows of the whole table from any row on, as many as the lent cells
//! hold, and an iterator over them.

mod common;

use common::{case_c, field_axis, try_jobs, CASE_C_WORDS};
use polgamir::{plan_part, plan_words_part, AxisMask, Job, Part, Refusal, Target};

/// The rows of case C as docs/METHOD.md prints them.
const CASE_C: [[i64; 3]; 5] = [[0, 0, 86], [43, 86, -1], [129, 85, 0], [214, 85, -85], [256, 0, 0]];

#[test]
fn case_c_in_parts() {
    for first in 0..7_u32 {
        for cells in 0..20_usize {
            let wanted: Vec<i64> = CASE_C.iter().skip(first as usize).take(cells / 3).flatten().copied().collect();
            let (mut table, mut from_words) = ([7; 20], [7; 20]);
            let part = plan_part(&case_c(), first, &mut table[..cells]).expect("case C");
            assert_eq!((part.arrival(), part.len() as usize, part.cells()), (4, wanted.len() / 3, &wanted[..]));
            assert!(part.rows().map(|row| row.tick()).eq(first..first + part.len()));
            let part = plan_words_part(&CASE_C_WORDS, first, &mut from_words[..cells]).expect("case C");
            assert_eq!((part.is_empty(), part.cells()), (wanted.is_empty(), &wanted[..]));
            assert!(table[wanted.len()..].iter().all(|&cell| cell == 7));
            assert_eq!(table, from_words);
        }
    }
}

#[test]
fn rows_of_a_part_are_read_by_tick() {
    let mut table = [0; 7];
    let part = plan_part(&case_c(), 2, &mut table).expect("case C");
    let found = [0, 1, 2, 3, 4, u32::MAX].map(|tick| part.row(tick).map(|row| row.cells().to_vec()));
    assert_eq!(found, [None, None, Some(CASE_C[2].to_vec()), Some(CASE_C[3].to_vec()), None, None]);
}

#[test]
fn a_refused_job_writes_no_part() {
    let refused = Job::arriving_at(3).with_axis(0, field_axis(Target::still(4)));
    let mut table = [7; 30];
    let not_reached = Refusal::NotReachable { axes: AxisMask(1) };
    assert_eq!(plan_part(&refused, 0, &mut table), Err(not_reached));
    assert_eq!(plan_words_part(&[], 0, &mut table), Err(Refusal::Mask));
    assert_eq!(table, [7; 30]);
}

/// The rows of a plan from a part.
fn same_rows(part: Part, whole: &[i64], width: usize, first: u32) {
    let from = width * first as usize;
    assert_eq!(part.cells(), &whole[from..from + part.cells().len()]);
}

#[test]
fn parts_put_together_are_the_table() {
    try_jobs(0x3030_0000_0000_0303, |random, round, job| {
        let width = 3 * job.mask().count_ones() as usize;
        let Ok(plan) = job.plan() else {
            let mut table = [7; 90];
            assert_eq!(plan_part(job, 0, &mut table).map(|part| part.len()), job.plan().map(|_| 0));
            assert_eq!(table, [7; 90]);
            return false;
        };
        let mut first = 0;
        while first <= plan.arrival() {
            let mut table = vec![i64::MIN; random.between(width as i64, 20 * width as i64) as usize];
            let part = plan_part(job, first, &mut table).expect("the same job");
            assert_eq!((part.arrival(), part.axes()), (plan.arrival(), plan.axes()));
            same_rows(part, plan.cells(), width, first);
            assert!(part.len() > 0);
            first += part.len();
        }
        let mut past = [7; 18];
        assert_eq!(plan_part(job, first, &mut past).map(|part| part.len()), Ok(0));
        assert_eq!(past, [7; 18]);
        let mut buffer = vec![0; width * (1 + round % 17)];
        let rows = job.rows_in_parts(&mut buffer).expect("the same job");
        assert_eq!((rows.len(), rows.arrival()), (plan.arrival() as usize + 1, plan.arrival()));
        assert!(rows.zip(plan.rows()).all(|(one, other)| one.row() == other && one.tick() == other.tick()));
        assert_eq!(job.rows_in_parts(&mut vec![0; width]).expect("the same job").count(), plan.arrival() as usize + 1);
        let none = job.rows_in_parts(&mut vec![0; width - 1]).map(|rows| rows.len());
        assert_eq!(none, Err(Refusal::TableTooShort { arrival: plan.arrival() }));
        true
    });
}
