//! A swing that dies away, or two, fitted to a record by least squares.

use std::f64::consts::PI;

use super::solve::{Matrix, Sums};
use super::spectrum::strongest;

/// One rate of a pole: e^(−decay·t) · (cosine·cos(frequency·t) + sine·sin(frequency·t)).
#[derive(Debug, Clone, Copy, PartialEq)]
pub struct Swing {
    pub cosine: f64,
    pub sine: f64,
    /// By second.
    pub decay: f64,
    /// In radians per second.
    pub frequency: f64,
}

impl Swing {
    /// Half a period in seconds.
    pub fn half_period(&self) -> f64 {
        PI / self.frequency
    }

    /// Each swing by the one half a period before it.
    pub fn ratio(&self) -> f64 {
        (-self.decay * self.half_period()).exp()
    }

    /// How far it goes at the start.
    pub fn size(&self) -> f64 {
        self.cosine.hypot(self.sine)
    }

    /// How many swings there and back stand above a noise, in a record of a length.
    pub fn swings_above(&self, noise: f64, length: f64) -> f64 {
        let lasts = match self.decay > 0.0 {
            true => ((self.size() / noise.max(f64::MIN_POSITIVE)).ln() / self.decay).clamp(0.0, length),
            false => length,
        };
        lasts / (2.0 * self.half_period())
    }

    /// The deflection at a time, and how it moves with each of the four numbers.
    fn at(&self, time: f64) -> (f64, [f64; 4]) {
        let shrunk = (-self.decay * time).exp();
        let (sine, cosine) = (self.frequency * time).sin_cos();
        let value = shrunk * (self.cosine * cosine + self.sine * sine);
        let turned = shrunk * (self.sine * cosine - self.cosine * sine);
        (value, [shrunk * cosine, shrunk * sine, -time * value, time * turned])
    }

    /// Moves its numbers.
    fn moved(&self, by: &[f64]) -> Swing {
        Swing {
            cosine: self.cosine + by[0],
            sine: self.sine + by[1],
            decay: self.decay + by[2],
            frequency: self.frequency + by[3],
        }
    }
}

/// What is fitted: times from the start of the swing on, their values, and how long they last.
#[derive(Debug, Clone)]
pub struct Samples {
    pub times: Vec<f64>,
    pub values: Vec<f64>,
}

impl Samples {
    /// How long they last.
    pub fn length(&self) -> f64 {
        self.times.last().copied().unwrap_or(0.0)
    }

    /// Those up to a time.
    pub fn up_to(&self, time: f64) -> Samples {
        let count = self.times.partition_point(|&sample| sample <= time);
        Samples { times: self.times[..count].to_vec(), values: self.values[..count].to_vec() }
    }
}

/// How many numbers the drift has: a parabola.
const DRIFT: usize = 3;

/// A fit: a drift and one swing or two.
#[derive(Debug, Clone)]
pub struct Fit {
    /// The drift's numbers, over the time by the length.
    drift: [f64; DRIFT],
    length: f64,
    pub swings: Vec<Swing>,
    /// The sum of the squares that are left.
    pub left: f64,
}

impl Fit {
    /// The drift at a time.
    pub fn drift_at(&self, time: f64) -> f64 {
        let share = time / self.length;
        self.drift.iter().rev().fold(0.0, |sum, number| sum * share + number)
    }

    /// The swings at a time, without the drift.
    pub fn swing_at(&self, time: f64) -> f64 {
        self.swings.iter().map(|swing| swing.at(time).0).sum()
    }

    /// What is left of each sample.
    pub fn rest(&self, samples: &Samples) -> Vec<f64> {
        let fitted = |time: f64| self.drift_at(time) + self.swing_at(time);
        samples.times.iter().zip(&samples.values).map(|(&time, value)| value - fitted(time)).collect()
    }

    /// The mean size of what is left, for so many samples and so many fitted numbers.
    pub fn noise(&self, samples: &Samples) -> f64 {
        let free = samples.times.len().saturating_sub(self.unknowns()).max(1);
        (self.left / free as f64).sqrt()
    }

    /// How much of what is left of a sample is seen in the next, from −1 to 1; about 0 for noise.
    pub fn follows(&self, samples: &Samples) -> f64 {
        let rest = self.rest(samples);
        rest.windows(2).map(|pair| pair[0] * pair[1]).sum::<f64>() / self.left.max(f64::MIN_POSITIVE)
    }

    /// How many numbers are fitted.
    pub fn unknowns(&self) -> usize {
        DRIFT + 4 * self.swings.len()
    }

    /// How each number moves the value at a time.
    fn row(&self, time: f64) -> Vec<f64> {
        let share = time / self.length;
        let drift = [1.0, share, share * share];
        drift.into_iter().chain(self.swings.iter().flat_map(|swing| swing.at(time).1)).collect()
    }

    /// The sums of the fit's least squares.
    fn sums(&self, samples: &Samples) -> Sums {
        let mut sums = Sums::new(self.unknowns());
        for (&time, rest) in samples.times.iter().zip(self.rest(samples)) {
            sums.add(&self.row(time), rest);
        }
        sums
    }

    /// With its numbers moved.
    fn moved(&self, by: &[f64], samples: &Samples) -> Fit {
        let drift = std::array::from_fn(|index| self.drift[index] + by[index]);
        let swings = self.swings.iter().zip(by[DRIFT..].chunks_exact(4)).map(|(swing, by)| swing.moved(by)).collect();
        Fit { drift, swings, ..*self }.measured(samples)
    }

    /// With what is left worked out.
    fn measured(self, samples: &Samples) -> Fit {
        let left = self.rest(samples).iter().map(|rest| rest * rest).sum();
        Fit { left, ..self }
    }

    /// The drift alone, where there is no swing.
    pub fn of_drift(samples: &Samples) -> Option<Fit> {
        let still = Fit { drift: [0.0; DRIFT], length: samples.length(), swings: Vec::new(), left: 0.0 };
        let by = still.sums(samples).solved(0.0)?;
        Some(still.moved(&by, samples))
    }

    /// With one more swing, at the rate that swings most in what is left.
    pub fn with_one_more(&self, samples: &Samples) -> Option<Fit> {
        let frequency = strongest(&samples.times, &self.rest(samples))?;
        let tried = [0.0, 0.5, 1.0, 2.0, 4.0, 8.0, 16.0].map(|times| times / self.length);
        let begun = tried.iter().filter_map(|&decay| {
            let swing = Swing { cosine: 0.0, sine: 0.0, decay, frequency };
            let mut swings = self.swings.clone();
            swings.push(swing);
            let mut fit = Fit { swings, ..self.clone() };
            fit.fit_sizes(samples)?;
            Some(fit)
        });
        let best = begun.min_by(|one, other| one.left.total_cmp(&other.left))?;
        best.settled(samples)
    }

    /// Fits the drift and the sizes of the swings, with rates and decays as they are.
    fn fit_sizes(&mut self, samples: &Samples) -> Option<()> {
        let kept: Vec<usize> = (0..self.unknowns()).filter(|index| *index < DRIFT || (index - DRIFT) % 4 < 2).collect();
        let mut sums = Sums::new(kept.len());
        for (&time, rest) in samples.times.iter().zip(self.rest(samples)) {
            let row = self.row(time);
            sums.add(&kept.iter().map(|&index| row[index]).collect::<Vec<_>>(), rest);
        }
        let mut by = vec![0.0; self.unknowns()];
        for (&index, moved) in kept.iter().zip(sums.solved(0.0)?) {
            by[index] = moved;
        }
        *self = self.moved(&by, samples);
        Some(())
    }

    /// With all numbers moved to where least is left: the method of Levenberg and Marquardt.
    fn settled(self, samples: &Samples) -> Option<Fit> {
        let (mut fit, mut damping) = (self, 1e-3);
        for _ in 0..200 {
            let by = fit.sums(samples).solved(damping)?;
            let next = fit.moved(&by, samples);
            if !next.left.is_finite() || next.left > fit.left || !next.is_possible() {
                damping *= 8.0;
                if damping > 1e12 {
                    break;
                }
                continue;
            }
            let is_done = fit.left - next.left <= 1e-12 * fit.left;
            (fit, damping) = (next, (damping / 4.0).max(1e-14));
            if is_done {
                break;
            }
        }
        Some(fit)
    }

    /// Whether its swings have rates above 0 and hardly grow.
    fn is_possible(&self) -> bool {
        self.swings.iter().all(|swing| swing.frequency > 0.0 && swing.decay * self.length > -2.0)
    }

    /// The variances and covariances of the fitted numbers for a variance of the samples of 1.
    pub fn covariance(&self, samples: &Samples) -> Option<Matrix> {
        self.sums(samples).inverse()
    }

    /// The place of a swing's numbers among all.
    pub fn place_of(swing: usize) -> usize {
        DRIFT + 4 * swing
    }
}
