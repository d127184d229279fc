//! What a buyer can check of a table without a planner: its first and last row, its limits, how
//! rows follow one another, and the sway.

use polgamir::sheet::Sheet;
use polgamir::{Axis, Motion, Target, FINE_STEPS};

use super::swings::{greatest_sway, rates};
use crate::report::rows::{nearest, worst_misses};

/// One check: what it says, and whether the table passes it.
#[derive(Debug, Clone, PartialEq, Eq)]
pub struct Check {
    /// The line to print.
    pub line: String,
    /// Whether the table passes.
    pub holds: bool,
}

/// The checks of a whole table, rows 0 to N in order, each with its axes ascending.
pub fn of_table(sheet: &Sheet, rows: &[Vec<i64>]) -> Vec<Check> {
    let mut checks = Vec::new();
    for (place, (number, axis)) in sheet.job.entered().enumerate() {
        let motion = |row: &Vec<i64>| Motion {
            position: row[3 * place],
            velocity: row[3 * place + 1],
            acceleration: row[3 * place + 2],
        };
        let motions: Vec<Motion> = rows.iter().map(motion).collect();
        of_axis(&sheet.axis_title(number), axis, &motions, &mut checks);
    }
    checks
}

fn of_axis(title: &str, axis: &Axis, rows: &[Motion], checks: &mut Vec<Check>) {
    let arrival = rows.len() - 1;
    let mut say = |holds: bool, line: String| checks.push(Check { line: format!("{title}: {line}"), holds });
    let steps = i128::from(FINE_STEPS);
    let start = [axis.start.position, axis.start.velocity].map(|number| steps * i128::from(number));
    let first = [rows[0].position, rows[0].velocity].map(i128::from);
    say(
        first == start,
        format!("row 0 is at {} moving {}; the start is {} moving {}", first[0], first[1], start[0], start[1]),
    );
    let target = target_at(axis, arrival);
    let last = rows[arrival];
    let last = [last.position, last.velocity, last.acceleration].map(i128::from);
    let told = |cells: [i128; 3]| cells.map(|cell| cell.to_string()).join(" ");
    say(last == target, format!("row {arrival} is {}; the target there is {}", told(last), told(target)));
    for (near, name) in nearest(axis, rows).iter().zip(["velocity", "acceleration"]) {
        say(near.size <= near.limit, format!("greatest {name} {} of {}, in row {}", near.size, near.limit, near.tick));
    }
    for (miss, name) in worst_misses(rows).iter().zip(["position", "velocity"]) {
        let size = format!("{}{}", miss.halves / 2, if miss.halves % 2 == 1 { ".5" } else { "" });
        say(miss.halves <= 3, format!("worst carry miss in {name} {size} of 1.5, from row {}", miss.tick));
    }
    let cells: Vec<i64> = rows.iter().map(|row| row.acceleration).collect();
    for rate in rates(axis) {
        let sway = greatest_sway(rate, &cells);
        let shown = format!("{}.{:03}", sway / 1000, sway % 1000);
        let line = format!(
            "sway left of half period {}, over all swing lists, {shown} of {arrival} times their size",
            rate.half_period
        );
        say(sway <= 1000 * arrival as u64, line);
    }
}

/// The target's position, velocity and acceleration at the arrival, in fine steps.
fn target_at(axis: &Axis, arrival: usize) -> [i128; 3] {
    let steps = i128::from(FINE_STEPS);
    match axis.target {
        Target::Fixed(point) => [steps * i128::from(point.position), steps * i128::from(point.velocity), 0],
        Target::Moving(state) => {
            let later = arrival as i128 - i128::from(state.tick);
            let [position, velocity, acceleration] =
                [state.position, state.velocity, state.acceleration].map(i128::from);
            [
                steps * (position + velocity * later) + steps / 2 * acceleration * later * later,
                steps * (velocity + acceleration * later),
                steps * acceleration,
            ]
        }
    }
}
