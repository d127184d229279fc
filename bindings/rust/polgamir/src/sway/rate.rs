//! The misfits of a sway that fits a half period and a ratio other than those of a blend.

use super::{Fraction, NoBound};

/// The longest half period that a pole is taken to have, in ticks.
const LONGEST: i128 = 512;

/// A little more than 1/π.
const BY_PI: (u128, u128) = (106, 333);

/// One of the blends of an axis, and what the weights of the other one add up
/// to, 1 where there is no other.
#[derive(Debug, Clone, Copy)]
pub struct Rate {
    pub first_weight: i128,
    pub second_weight: i128,
    pub half_period: i128,
    pub others: i128,
}

/// A bound on the misfits of every sway of a half period and a ratio: by_size /
/// size_parts for each unit of G and by_difference / parts for each unit of D, but not
/// more than `most` for each unit of G.
#[derive(Debug, Clone, Copy)]
pub struct Misfits {
    by_size: u128,
    size_parts: u128,
    by_difference: u128,
    /// The parts of a tick in which the true half period is counted.
    parts: u128,
    /// The true half period in these parts.
    half_period: u128,
    most: u128,
}

/// The greatest misfit and the greatest entry of an oscillator's swing, in parts of a unit.
pub struct Oscillator {
    pub misfit: u128,
    pub size: u128,
    pub parts: u128,
}

impl Rate {
    /// The misfits of a sway with these errors. With A and B the weights, S their
    /// sum and n/d the error of the ratio B/A, the second weight of the true ratio
    /// differs from B by A²n / (Sd + An).
    pub fn misfits(&self, half_period_error: Fraction, ratio_error: Fraction) -> Result<Misfits, NoBound> {
        let (late, parts) = half_period_error.parts().ok_or(NoBound::HalfPeriod)?;
        let (more, of) = ratio_error.parts().ok_or(NoBound::Ratio)?;
        let Rate { first_weight, second_weight, others, .. } = *self;
        let half_period = self.half_period * parts + late;
        if half_period <= 0 || half_period > LONGEST * parts {
            return Err(NoBound::HalfPeriod);
        }
        let ratio = second_weight * of + first_weight * more;
        if ratio <= 0 || ratio > first_weight * of {
            return Err(NoBound::Ratio);
        }
        let sum = first_weight + second_weight;
        Ok(Misfits {
            by_size: (others * 2 * first_weight * first_weight * more.abs()).unsigned_abs(),
            size_parts: (sum * of + first_weight * more).unsigned_abs(),
            by_difference: (others * first_weight * late.abs()).unsigned_abs(),
            parts: parts.unsigned_abs(),
            half_period: half_period.unsigned_abs(),
            most: (others * sum).unsigned_abs(),
        })
    }
}

impl Misfits {
    /// The greatest misfit of a sway with no entry above a size and no two neighbours further apart
    /// than a difference, rounded upward.
    pub fn greatest(&self, size: u128, difference: u128) -> u128 {
        let parts = self.size_parts * self.parts;
        let misfit = self.by_size * self.parts * size + self.by_difference * self.size_parts * difference;
        misfit.div_ceil(parts).min(self.most * size)
    }

    /// Of an oscillator of the true half period p, whose size is (p/π)² and whose difference p/π.
    pub fn of_oscillator(&self) -> Oscillator {
        let (above, below) = BY_PI;
        let square = self.half_period * self.half_period * above * above;
        let misfit = self.by_size * square + self.by_difference * self.size_parts * self.half_period * above * below;
        let size = square * self.size_parts;
        let parts = self.size_parts * self.parts * self.parts * below * below;
        Oscillator { misfit: misfit.min(self.most * size), size, parts }
    }
}
