//! A part of 16 rows out of the middle of a table, of one and of six axes on each grid, with the
//! least arrival sought and with that arrival asked for: nanoseconds, beside those of the whole
//! table; or some calls alone, for a counter of instructions.

use std::hint::black_box;

use outside::library::{self, laid_out};
use outside::reference::{Axis, Damping, Job, Target};
use polgamir_sys::{polgamir_job, polgamir_plan_job_part};

use crate::{axis, batch, one, six};

/// The rows of a part.
const ROWS: usize = 16;

/// The cells of the largest table.
const MOST_CELLS: usize = 3 * 6 * 4097;

/// A target that accelerates, far ahead, joined on a damped pole: planned on the finer grid.
fn follower(half_period: u32) -> Axis {
    let target = Target::Moving { position: 4_600_000, velocity: 0, acceleration: 1, tick: 0 };
    Axis { target, ..axis(10_000, 5, half_period, 100, 0) }
}

/// The jobs without an arrival, by name.
fn jobs() -> [(&'static str, Job); 6] {
    let joint = |axis| Axis { second: Some(15), ..axis };
    let wide = Job { mask: 63, asked: 0, axes: six(), windows: None };
    let followers =
        std::array::from_fn(|i| Axis { damping: Damping::Weight(90 + i as u32), ..follower(40 + i as u32) });
    [
        ("one axis", one(axis(100, 1, 40, 128, 185_900))),
        ("one axis, finer grid", one(follower(40))),
        ("one axis, second sway", one(joint(axis(100, 1, 40, 128, 185_900)))),
        ("six axes", wide),
        ("six axes, finer grid", Job { axes: followers, ..wide }),
        ("six axes, second sways", Job { axes: six().map(joint), ..wide }),
    ]
}

/// A job in the library's layout, with a lent table of 16 rows and the first of its middle ones.
struct Case {
    name: String,
    job: Job,
    laid_out: polgamir_job,
    arrival: u32,
    first: u32,
}

impl Case {
    /// A job with the least arrival sought, and with that arrival asked for.
    fn both(name: &str, job: &Job) -> [Case; 2] {
        let mut table = vec![0; MOST_CELLS];
        let answer = library::plan_typed(job, &mut table);
        assert_eq!(answer.number, 0, "{name}");
        let of = |name: String, job: Job| Case {
            name,
            job,
            laid_out: laid_out(&job, 0),
            arrival: answer.arrival,
            first: answer.arrival / 2,
        };
        let asked = Job { asked: answer.arrival, ..*job };
        [of(format!("{name}, least arrival"), *job), of(format!("{name}, asked arrival"), asked)]
    }

    /// The cells of its part.
    fn cells(&self) -> usize {
        3 * self.job.count() * ROWS
    }

    /// Plans the part.
    fn part(&self, table: &mut [i64]) -> u32 {
        let (first, cells) = (black_box(self.first), self.cells());
        unsafe { polgamir_plan_job_part(black_box(self.laid_out), first, table.as_mut_ptr(), cells) }.rows
    }

    /// Plans the whole table.
    fn whole(&self, table: &mut [i64]) -> u32 {
        library::plan_c_job(black_box(self.laid_out), table).arrival
    }
}

fn cases() -> Vec<Case> {
    jobs().iter().flat_map(|(name, job)| Case::both(name, job)).collect()
}

/// Prints the table of parts. Each part's rows must be the whole table's.
pub fn table() {
    println!("| a part of 16 rows from the middle | table | part, ns | whole table, ns |");
    println!("|---|---|---|---|");
    for case in cases() {
        let (mut whole, mut part) = (vec![0; MOST_CELLS], vec![0; case.cells()]);
        case.whole(&mut whole);
        assert_eq!(case.part(&mut part) as usize, ROWS);
        let before = 3 * case.job.count() * case.first as usize;
        assert_eq!(part, whole[before..before + part.len()]);
        let round = || [batch(4_000, || case.part(&mut part)), batch(100, || case.whole(&mut whole))];
        let mut round = round;
        let rounds: Vec<[f64; 2]> = (0..41).map(|_| round()).collect();
        let [of_part, of_whole] = [0, 1].map(|i| rounds.iter().map(|round| round[i]).fold(f64::INFINITY, f64::min));
        println!("| {} | {} rows | {of_part:.0} | {of_whole:.0} |", case.name, case.arrival + 1);
    }
    println!();
}

/// Makes some calls of a case and nothing else: for a counter of instructions. `whole` calls for
/// its table, any other word for its part.
pub fn calls(case: usize, kind: &str, count: usize) {
    let (case, mut table) = (&cases()[case], vec![0; MOST_CELLS]);
    for _ in 0..count {
        black_box(if kind == "whole" { case.whole(&mut table) } else { case.part(&mut table) });
    }
}

/// The cases' names and rows, a line each.
pub fn names() {
    for case in cases() {
        println!("{} | {} rows", case.name, case.arrival + 1);
    }
}
