//! Owned plans, and the ways through their rows.

mod common;

use common::{case_c, field_axis, Random};
use polgamir::{plan, Axis, Damping, Job, Plan, Refusal, Row, Target};

/// The positions of case C's rows, as docs/METHOD.md prints them.
const CASE_C_POSITIONS: [i64; 5] = [0, 43, 129, 214, 256];

/// The position of axis 0 in a row.
fn position(row: Row) -> i64 {
    row.axis(0).expect("axis 0").position
}

#[test]
fn rows_are_walked_by_for() {
    let plan = case_c().plan().expect("case C");
    let mut positions = Vec::new();
    for row in &plan {
        positions.push(position(row));
    }
    assert_eq!(positions, CASE_C_POSITIONS);
    let mut ticks = Vec::new();
    for row in plan.accepted() {
        ticks.push(row.tick());
    }
    assert_eq!(ticks, [0, 1, 2, 3, 4]);
}

#[test]
fn rows_are_walked_from_both_ends() {
    let plan = case_c().plan().expect("case C");
    let backwards: Vec<i64> = plan.rows().rev().map(position).collect();
    assert_eq!(backwards, [256, 214, 129, 43, 0]);
    let mut rows = plan.rows();
    assert_eq!(rows.len(), 5);
    assert_eq!(rows.next().map(|row| row.tick()), Some(0));
    assert_eq!(rows.next_back().map(|row| row.tick()), Some(4));
    assert_eq!(rows.nth(1).map(|row| row.tick()), Some(2));
    assert_eq!(rows.len(), 1);
    assert_eq!(rows.nth_back(0).map(|row| row.tick()), Some(3));
    assert_eq!((rows.next(), rows.next_back(), rows.len()), (None, None, 0));
}

#[test]
fn a_row_is_found_by_its_tick() {
    let plan = case_c().plan().expect("case C");
    for (tick, expected) in (0..).zip(CASE_C_POSITIONS) {
        let row = plan.row(tick).expect("a row up to the arrival");
        assert_eq!((row.tick(), position(row)), (tick, expected));
    }
    assert_eq!((plan.row(5), plan.row(u32::MAX)), (None, None));
}

/// An owned plan is the one that lent cells get, and is as long as its table.
#[test]
fn owned_and_lent_plans_are_the_same() {
    let mut random = Random(0x0417_0000_2222_0001);
    for _ in 0..60 {
        let job = random.plannable_job();
        let mut table = vec![0; job.enough_cells()];
        let lent = plan(&job, &mut table);
        let owned = job.plan();
        assert_eq!(owned.as_ref().map(Plan::accepted).map_err(|&refusal| refusal), lent);
        assert_eq!(job.arrival_found(), lent.map(|accepted| accepted.arrival()));
        if let Ok(owned) = owned {
            assert_eq!((owned.arrival(), owned.axes().0), (owned.rows().len() as u32 - 1, job.mask()));
            assert_eq!(owned.cells().len(), polgamir::cells_needed(job.mask().count_ones(), owned.arrival()));
            assert!(owned.rows().flat_map(|row| row.cells().to_vec()).eq(owned.cells().iter().copied()));
            assert_eq!(owned.clone().into_cells(), owned.cells());
        }
    }
}

#[test]
fn a_refused_job_has_no_plan() {
    let axis = Axis { damping: Damping::Weight(129), ..field_axis(Target::still(1)) };
    assert_eq!(Job::earliest().with_axis(3, axis).plan(), Err(Refusal::Blend { axis: 3 }));
    assert_eq!(Job::earliest().plan(), Err(Refusal::Mask));
    assert_eq!(Job::earliest().arrival_found(), Err(Refusal::Mask));
}
