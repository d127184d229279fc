//! Part 5.5 of docs/METHOD.md on the tables that the library writes: no list leaves more sway
//! than what the planned acceleration changes at most, times the list's greatest misfit; as rounded
//! N times its greatest entry more. Lists of any entries, and lists that fit another half period
//! and another ratio, with several entries to a tick.

use outside::accepted;
use outside::jobs::{self, Reach};
use outside::random::Random;
use outside::reference::{Axis, Job, Planned};
use outside::swing;

/// An axis of an accepted job: the exact accelerations of its rows, its cells, and what its
/// planned accelerations change in all.
struct Rows<'a> {
    axis: &'a Axis,
    arrival: usize,
    exact: Vec<i64>,
    cells: Vec<i64>,
    changes: i128,
    /// What an exact acceleration is divided by to give fine steps.
    fine: i128,
}

impl Rows<'_> {
    fn new<'a>(axis: &'a Axis, cells: Vec<i64>) -> Rows<'a> {
        let arrival = cells.len() - 1;
        let planned = Planned::reaching(axis, arrival as i64).unwrap().with_list();
        let exact = |k: usize| planned.exact(axis, k as i64).acceleration;
        let landing = arrival as i64 - axis.delay();
        let before = |k: i64| if k == 0 { 0 } else { planned.acceleration(k - 1) };
        let change = |k: i64| i128::from(planned.acceleration(k) - before(k));
        Rows {
            axis,
            arrival,
            exact: (0..=arrival).map(exact).collect(),
            cells,
            changes: (0..=landing).map(|k| change(k).abs()).sum(),
            fine: i128::from(planned.exact(axis, 0).fine),
        }
    }

    /// 4μ + |α| + 2, in steps of the axis's grid.
    fn most_changes(&self) -> i128 {
        let weights = if self.axis.second.is_some() { 2 } else { 1 };
        let grid = self.fine / weights;
        let limits = 4 * i128::from(self.axis.acceleration_limit) + i128::from(self.axis.target.acceleration().abs());
        grid * limits + 2
    }

    fn misfit(&self, w: &[i128], i: usize) -> i128 {
        let (h, b) = (self.axis.half_period as usize, i128::from(self.axis.weight()));
        let once = |j: usize| (256 - b) * w[j + h] + b * w[j];
        match self.axis.second {
            None => once(i),
            Some(delay) => once(i + delay as usize) + once(i),
        }
    }

    /// The greatest misfit of the last entries of a list, of which the rows see one each.
    fn greatest_misfit(&self, w: &[i128]) -> i128 {
        let last = w.len() - 1 - self.axis.delay() as usize;
        (w.len() - 1 - self.arrival..=last).map(|i| self.misfit(w, i).abs()).max().unwrap()
    }

    /// The bound holds of a list whose greatest misfit and entry are at most these, each a
    /// fraction with the denominator `parts`.
    fn hold(&self, w: &[i128], misfit: i128, size: i128, parts: i128) {
        let most = self.most_changes() * misfit;
        assert!(parts * swing::sway(&self.exact, w).abs() <= most, "before rounding: {:?}", self.axis);
        let rounded = self.fine * parts * swing::sway(&self.cells, w).abs();
        assert!(rounded <= most + self.fine * self.arrival as i128 * size, "as rounded: {:?}", self.axis);
    }
}

#[derive(Debug, Default)]
struct Tried {
    lists: usize,
    poles: usize,
    second_poles: usize,
    /// Axes with no blend whose planned accelerations change as much as any may: the bound is
    /// attained.
    sharp: usize,
}

impl Tried {
    /// A list of any entries; those before the last N + 1 are far too large.
    fn any_list(&mut self, random: &mut Random, rows: &Rows) {
        let size = random.pick(&[1, 30, 1 << 20]);
        let before = if random.once_in(2) { 0 } else { random.below(40) };
        let mut w: Vec<i128> = vec![1 << 60; before];
        w.extend((0..=rows.arrival).map(|_| i128::from(random.between(-size, size))));
        let greatest = w[before..].iter().map(|entry| entry.abs()).max().unwrap();
        rows.hold(&w, rows.greatest_misfit(&w), greatest, 1);
        self.lists += 1;
    }

    /// With no blend, the list of the signs of the changes leaves all of them.
    fn signs(&mut self, rows: &Rows) {
        let before = |k: usize| if k == 0 { 0 } else { rows.exact[k - 1] };
        let sign = |k: usize| if rows.exact[k] >= before(k) { 1 } else { -1 };
        let w: Vec<i128> = (0..=rows.arrival).rev().map(sign).collect();
        rows.hold(&w, 256, 1, 1);
        assert_eq!(swing::sway(&rows.exact, &w), 256 * rows.changes);
        self.sharp += usize::from(rows.changes == rows.most_changes());
    }

    /// A list that fits a half period of turn / parts ticks and the ratio b / a.
    fn pole(&mut self, random: &mut Random, rows: &Rows) {
        let second = rows.axis.second.is_some() && random.once_in(2);
        let (first_weight, second_weight, half_period, others) = match (second, rows.axis.second) {
            (true, Some(delay)) => (1, 1, i64::from(delay), 256),
            (_, delay) => {
                let b = i128::from(rows.axis.weight());
                (256 - b, b, i64::from(rows.axis.half_period), if delay.is_some() { 2 } else { 1 })
            }
        };
        let parts = random.between(1, 3);
        let turn = (parts * half_period + random.between(-2 * parts, 2 * parts)).max(1) as usize;
        let weight = random.between(64, 128);
        let last = rows.arrival * parts as usize + turn;
        if swing::longest(turn, weight, last) < last {
            return;
        }
        let u = swing::list(random, turn, weight, last);
        let w: Vec<i128> = u.iter().step_by(parts as usize).take(rows.arrival + 1).copied().collect();
        let size = u.iter().map(|entry| entry.abs()).max().unwrap();
        let apart = u.windows(2).map(|pair| (pair[1] - pair[0]).abs()).max().unwrap_or(0);
        // The list's weights are 256 in all, so that its misfits come times 256.
        let sum = first_weight + second_weight;
        let off = (sum * i128::from(weight) - 256 * second_weight).abs();
        let late = (turn as i128 - i128::from(parts * half_period)).abs();
        let misfit = others * (2 * off * size + 256 * first_weight * late * apart);
        assert!(256 * rows.greatest_misfit(&w) <= misfit, "{:?} {turn} by {parts}, {weight}", rows.axis);
        rows.hold(&w, misfit, 256 * size, 256);
        *(if second { &mut self.second_poles } else { &mut self.poles }) += usize::from(size > 0);
    }
}

/// Tries `count` jobs.
fn run(seed: u64, draw: fn(&mut Random) -> Job, count: usize) -> Tried {
    let mut tried = Tried::default();
    accepted::each_axis(seed, draw, count, |random, axis, rows| {
        let rows = Rows::new(axis, rows.iter().map(|row| row[2]).collect());
        assert!(rows.changes <= rows.most_changes(), "{axis:?} at {}", rows.arrival);
        tried.any_list(random, &rows);
        tried.pole(random, &rows);
        if axis.delay() == 0 {
            tried.signs(&rows);
        }
    });
    eprintln!("{tried:?}");
    tried
}

#[test]
fn near_jobs_leave_no_more_than_the_bound() {
    let tried = run(25, |random| jobs::job(random, Reach::Near), 10_000);
    assert!(tried.lists > 1_000 && tried.poles > 500 && tried.second_poles > 100 && tried.sharp > 10, "{tried:?}");
}

#[test]
fn quick_jobs_leave_no_more_than_the_bound() {
    let tried = run(26, |random| jobs::job(random, Reach::Quick), 5_000);
    assert!(tried.lists > 500 && tried.poles > 100 && tried.second_poles > 20 && tried.sharp > 10, "{tried:?}");
}

#[test]
fn chasing_jobs_leave_no_more_than_the_bound() {
    let tried = run(27, jobs::chasing_job, 600);
    assert!(tried.lists > 100, "{tried:?}");
}
