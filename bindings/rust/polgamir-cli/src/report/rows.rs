//! What is read off the rows of a table: how near an axis comes to its limits, and how far a row
//! that is carried on misses the next.

use polgamir::{Axis, Motion, FINE_STEPS};

/// How near one quantity of an axis comes to its limit.
#[derive(Debug, Clone, Copy, PartialEq)]
pub struct Nearest {
    /// The greatest size, in fine steps, and its first tick.
    pub size: i64,
    /// The tick.
    pub tick: usize,
    /// The limit in fine steps.
    pub limit: i64,
    /// How many rows are at the limit.
    pub rows_at_limit: usize,
}

impl Nearest {
    /// How near cells come to a limit in units.
    fn of(cells: impl Iterator<Item = i64>, limit: u32) -> Nearest {
        let limit = FINE_STEPS * i64::from(limit);
        let mut nearest = Nearest { size: 0, tick: 0, limit, rows_at_limit: 0 };
        for (tick, cell) in cells.enumerate() {
            let size = cell.abs();
            nearest.rows_at_limit += usize::from(size == limit);
            if size > nearest.size {
                nearest = Nearest { size, tick, ..nearest };
            }
        }
        nearest
    }

    /// The part of the limit that is used.
    pub fn part(&self) -> f64 {
        self.size as f64 / self.limit as f64
    }
}

/// How near the velocities and the accelerations of an axis come to their limits.
pub fn nearest(axis: &Axis, rows: &[Motion]) -> [Nearest; 2] {
    [
        Nearest::of(rows.iter().map(|row| row.velocity), axis.speed_limit),
        Nearest::of(rows.iter().map(|row| row.acceleration), axis.acceleration_limit),
    ]
}

/// The worst miss of a quantity, in half fine steps, and the tick of the row that is carried on.
#[derive(Debug, Clone, Copy, PartialEq, Eq)]
pub struct Miss {
    /// Its size in half fine steps.
    pub halves: i64,
    /// The tick.
    pub tick: usize,
}

/// The worst misses of an axis's rows in position and in velocity.
pub fn worst_misses(rows: &[Motion]) -> [Miss; 2] {
    let mut worst = [Miss { halves: 0, tick: 0 }; 2];
    for (tick, pair) in rows.windows(2).enumerate() {
        let (row, next) = (pair[0], pair[1]);
        let position = 2 * (row.position + row.velocity - next.position) + row.acceleration;
        let velocity = 2 * (row.velocity + row.acceleration - next.velocity);
        for (worst, halves) in worst.iter_mut().zip([position.abs(), velocity.abs()]) {
            if halves > worst.halves {
                *worst = Miss { halves, tick };
            }
        }
    }
    worst
}

#[cfg(test)]
mod tests {
    use super::*;
    use crate::test_axis::unblended;

    /// Case C's rows, as they are printed: position, velocity, acceleration.
    const CASE_C: [[i64; 3]; 5] = [[0, 0, 86], [43, 86, -1], [129, 85, 0], [214, 85, -85], [256, 0, 0]];

    fn rows() -> Vec<Motion> {
        CASE_C.map(|[position, velocity, acceleration]| Motion { position, velocity, acceleration }).into()
    }

    /// Row 1 carried on is at 43 + 86 − 1/2, half a fine step from 129; velocities are met.
    #[test]
    fn misses_of_case_c() {
        assert_eq!(worst_misses(&rows()), [Miss { halves: 1, tick: 1 }, Miss { halves: 0, tick: 0 }]);
    }

    #[test]
    fn limits_of_case_c() {
        let axis = unblended(10, 1, 0, 1);
        let [velocity, acceleration] = nearest(&axis, &rows());
        assert_eq!(velocity, Nearest { size: 86, tick: 1, limit: 2560, rows_at_limit: 0 });
        assert_eq!(acceleration, Nearest { size: 86, tick: 0, limit: 256, rows_at_limit: 0 });
    }
}
