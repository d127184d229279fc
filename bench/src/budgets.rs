//! Nanoseconds of a search with a budget: what a call takes by itself, and what each candidate
//! adds.

use std::hint::black_box;

use outside::library::laid_out;
use outside::reference::{Axis, Damping, Job, Single, Target, Windows};
use polgamir_sys::polgamir_search_job;

use crate::{batch, searches};

/// The budgets of a row; the last two tell what a candidate adds.
const BUDGETS: [u32; 5] = [0, 1, 10, 100, 1_000];

/// The first candidate: late enough for sums of many ticks.
const FIRST: u32 = 3_000;

/// The same job with damping as measured, whose weight each call works out; that of
/// so small a ratio takes longest.
fn measured(job: Job) -> Job {
    let damping = Damping::Ratio(Single(0.001f32.to_bits()));
    Job { axes: job.axes.map(|axis| Axis { damping, half_period: 30, ..axis }), ..job }
}

/// Targets that accelerate, far ahead, on damped poles: planned on the finer grid.
fn finer(axes: u32) -> Job {
    let job = searches::accelerating(axes);
    Job { axes: job.axes.map(|axis| Axis { damping: Damping::Weight(100), half_period: 4, ..axis }), ..job }
}

/// Five axes that reach every candidate and one that reaches none, with 32 windows of eight ticks
/// from the first candidate on: in each window all six are asked.
fn in_each_window() -> Job {
    let near = Target::Fixed { position: 1_000, velocity: 0 };
    let far = searches::out_of_reach();
    let mut axes = far.axes.map(|axis| Axis { speed_limit: 1_000, acceleration_limit: 20, target: near, ..axis });
    axes[5] = far.axes[5];
    let pairs: [(u32, u32); 32] = std::array::from_fn(|i| (FIRST + 8 * i as u32, FIRST + 8 * (i as u32 + 1)));
    Job { axes, windows: Some(Windows::new(0, &pairs)), ..far }
}

/// One axis of a job.
fn alone(job: Job) -> Job {
    Job { mask: 1, ..job }
}

/// Prints the row of a job that reaches nothing, so that each budget is spent to its last
/// candidate.
fn row(name: &str, job: &Job) {
    let laid_out = laid_out(job, 0);
    let search = |budget| unsafe { polgamir_search_job(black_box(laid_out), black_box(FIRST), black_box(budget)) };
    for budget in BUDGETS {
        let answer = search(budget);
        assert_eq!((answer.number, answer.report, answer.tried, answer.next), (0, 2, budget, FIRST + budget));
    }
    let round = || BUDGETS.map(|budget| batch(200_000 / (budget as usize + 20), || search(budget).tried));
    let rounds: Vec<[f64; BUDGETS.len()]> = (0..41).map(|_| round()).collect();
    let least: Vec<f64> =
        (0..BUDGETS.len()).map(|i| rounds.iter().map(|round| round[i]).fold(f64::INFINITY, f64::min)).collect();
    let times: Vec<String> = least.iter().map(|time| format!("{time:.0}")).collect();
    println!("| {name} | {} | {:.1} |", times.join(" | "), (least[4] - least[3]) / 900.0);
}

/// Prints the table of searches with a budget.
pub fn table() {
    let far = searches::out_of_reach();
    println!("| a search with a budget, ns | 0 | 1 | 10 | 100 | 1,000 | a candidate |");
    println!("|---|---|---|---|---|---|---|");
    row("one axis", &alone(far));
    row("six axes", &far);
    row("six axes, damping as measured", &measured(far));
    row("six axes, 32 windows", &searches::in_windows(far));
    row("six axes, all asked in each of 32 windows", &in_each_window());
    row("one target that accelerates", &searches::accelerating(1));
    row("six targets that accelerate", &searches::accelerating(6));
    row("six targets that accelerate, finer grid", &finer(6));
    row("six targets that accelerate, finer grid, 32 windows", &searches::in_windows(finer(6)));
    println!();
}
