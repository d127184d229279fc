//! What a record says of a plan: its misfits on the pole as entered, and the sway that they can
//! leave.

use polgamir::Axis;

use super::Tap;

/// The parts of a unit in which the entries of a list are counted.
const PARTS: f64 = 1000.0;

/// The misfits of a record on an axis. The record is read at every tick as a list of whole numbers,
/// scaled so that its strongest swing is that of an oscillator of its half period which is pushed
/// by 1 unit per tick²: (p/π)² units, in thousandths of a unit.
#[derive(Debug, Clone, Copy, PartialEq, Eq)]
pub struct Misfit {
    /// E: the greatest misfit of the list.
    pub greatest: u64,
    /// E of the fitted swing in place of the record, which has no noise.
    pub of_fit: u64,
    /// G: the greatest entry of the list.
    pub size: u64,
    /// How many ticks of the swing the record has.
    pub ticks: usize,
}

/// The record and the fitted swing, as lists of whole numbers.
struct Lists {
    measured: Vec<i64>,
    fitted: Vec<i64>,
}

impl Tap {
    /// The misfits of the record on an axis whose ticks have so many seconds. `None` where the
    /// record is shorter than the blend, or the planner refuses the axis's damping.
    pub fn misfit(&self, axis: &Axis, tick: f64) -> Option<Misfit> {
        let Lists { measured, fitted } = self.lists(tick);
        Some(Misfit {
            greatest: greatest_misfit(axis, &measured)?,
            of_fit: greatest_misfit(axis, &fitted)?,
            size: measured.iter().map(|entry| entry.unsigned_abs()).max()?,
            ticks: measured.len() - 1,
        })
    }

    /// The record and the fitted swing at every tick, in one scale.
    fn lists(&self, tick: f64) -> Lists {
        let ticks = (self.part.samples.length().min(self.end() - self.part.start) / tick).floor() as usize;
        let slowest = self.rates.iter().map(|rate| rate.half_period.value).fold(0.0, f64::max);
        let measured: Vec<f64> = (0..=ticks).map(|index| self.deflection(index as f64 * tick)).collect();
        let strongest = measured.iter().fold(0.0_f64, |most, entry| most.max(entry.abs()));
        let scale = (slowest / tick / std::f64::consts::PI).powi(2) * PARTS / strongest;
        let whole = |entry: f64| (entry * scale).round() as i64;
        let fitted = (0..=ticks).map(|index| whole(self.fit.swing_at(index as f64 * tick))).collect();
        Lists { measured: measured.into_iter().map(whole).collect(), fitted }
    }

    /// The deflection of the record at a time from the start of the swing, without drift, on a
    /// straight line between samples; the fitted one where samples are left out.
    fn deflection(&self, time: f64) -> f64 {
        let samples = &self.part.samples;
        let next = samples.times.partition_point(|&sample| sample < time).min(samples.times.len() - 1);
        let value = |index: usize| samples.values[index] - self.fit.drift_at(samples.times[index]);
        let usual = samples.length() / samples.times.len() as f64;
        match next.checked_sub(1).map(|before| (before, samples.times[next] - samples.times[before])) {
            Some((before, gap)) if gap < 3.0 * usual => {
                value(before) + (time - samples.times[before]) / gap * (value(next) - value(before))
            }
            _ => self.fit.swing_at(time),
        }
    }
}

impl Misfit {
    /// The most that a table of the axis with an arrival leaves of such a sway, in units: by
    /// the exact blend, and as rounded.
    pub fn sway_left(&self, axis: &Axis, arrival: u32) -> Option<(f64, f64)> {
        let left = axis.sway_left(arrival, self.greatest, self.size).ok()?;
        let units = |fine_steps: u128| fine_steps as f64 / PARTS / polgamir::FINE_STEPS as f64;
        Some((units(left.exact), units(left.rounded)))
    }
}

/// The greatest misfit of a list on an axis: of A·w(i + h) + B·w(i), and with a second half period
/// of that at i + h₂ plus that at i.
fn greatest_misfit(axis: &Axis, list: &[i64]) -> Option<u64> {
    let weight = i64::from(axis.damping.weight()?);
    let (half, second) = (axis.half_period as usize, axis.second_half_period.map(|ticks| ticks as usize));
    let once = |index: usize| (256 - weight) * list[index + half] + weight * list[index];
    let last = list.len().checked_sub(1 + half + second.unwrap_or(0))?;
    let misfit = |index: usize| match second {
        None => once(index),
        Some(second) => once(index + second) + once(index),
    };
    (0..=last).map(|index| misfit(index).unsigned_abs()).max()
}

#[cfg(test)]
mod tests {
    use super::*;
    use crate::test_axis::unblended;
    use polgamir::{Damping, Target};

    fn axis(half_period: u32, weight: u32, second_half_period: Option<u32>) -> Axis {
        let damping = Damping::Weight(weight);
        Axis { half_period, damping, second_half_period, ..unblended(9, 1, 0, 9) }
    }

    /// By hand: 128·(w(i+2) + w(i)) of 5, 3, −4, −3, 2 is 128, 0, −256; of a list
    /// that turns over exactly it is 0.
    #[test]
    fn misfits_are_those_of_the_list() {
        assert_eq!(greatest_misfit(&axis(2, 128, None), &[5, 3, -4, -3, 2]), Some(256));
        assert_eq!(greatest_misfit(&axis(2, 128, None), &[5, 3, -5, -3, 5]), Some(0));
        assert_eq!(greatest_misfit(&axis(1, 64, None), &[3, -1]), Some(0));
        assert_eq!(greatest_misfit(&axis(2, 128, Some(1)), &[5, 3, -4, -3, 2]), Some(256));
        assert_eq!(greatest_misfit(&axis(5, 128, None), &[5, 3, -4, -3, 2]), None);
    }

    /// A record of a pole that swings over in 21 ticks of 20 ms, each swing 0.8 of the
    /// one before, 50 samples a second.
    fn tap() -> Tap {
        let mut noise = 1_u64;
        let line = |index: u32| {
            noise = noise.wrapping_mul(6_364_136_223_846_793_005).wrapping_add(1);
            let (time, ratio) = (f64::from(index) * 0.02, 0.8_f64);
            let swing = ratio.powf(time / 0.42) * (std::f64::consts::PI * time / 0.42 + 1.0).sin();
            format!("{time:.2} {:.4}\n", 2.0 + swing + 0.02 * ((noise >> 40) as f64 / 2_f64.powi(24) - 0.5))
        };
        super::super::read(&(0..400).map(line).collect::<String>(), None, None).expect("a tap")
    }

    /// On the pole as it is the fitted swing hardly misfits; on one that swings over in 26 ticks it
    /// does.
    #[test]
    fn a_record_fits_its_own_pole() {
        let found = |half_period| tap().misfit(&axis(half_period, 113, None), 0.02).expect("misfits");
        let (own, other) = (found(21), found(26));
        // Weight 113 stands for 113/143, a little below 0.8: by 0.78 of a weight, which counts
        // twice.
        assert!(own.of_fit < 2 * own.size, "{own:?}");
        assert!(other.of_fit > 20 * own.of_fit && other.greatest >= own.greatest, "{own:?} {other:?}");
        // The strongest swing is that of an oscillator pushed by 1 unit per tick²:
        // (21/π)² units, in thousandths.
        assert!((44_000..46_000).contains(&own.size) && own.ticks > 100, "{own:?}");
        assert!(tap().misfit(&axis(21, 113, None), 1.0).is_none());
    }

    /// No table leaves more of the record's swing than the bound says, at any tick that the record
    /// has: the sum of each change of the cells times the entry so many ticks later.
    #[test]
    fn no_table_exceeds_the_bound_of_a_record() {
        let (tap, tick) = (tap(), 0.02);
        let list = tap.lists(tick).measured;
        for half_period in [0, 13, 20, 21, 22, 30] {
            let axis = Axis { target: Target::still(400), acceleration_limit: 3, ..axis(half_period, 113, None) };
            let plan = polgamir::Job::earliest().with_axis(0, axis).plan().expect("a plan");
            let cells: Vec<i64> = plan.rows().filter_map(|row| row.axis(0)).map(|motion| motion.acceleration).collect();
            let misfit = tap.misfit(&axis, tick).expect("misfits");
            let bound = axis.sway_left(plan.arrival(), misfit.greatest, misfit.size).expect("a bound").rounded;
            let changes: Vec<i64> =
                (0..cells.len()).map(|k| cells[k] - if k == 0 { 0 } else { cells[k - 1] }).collect();
            assert!(list.len() > cells.len(), "the record is long enough");
            for m in cells.len() - 1..list.len() {
                let left: i64 = changes.iter().enumerate().map(|(k, change)| change * list[m - k]).sum();
                assert!(u128::from(left.unsigned_abs()) <= bound, "{half_period} {m}");
            }
        }
    }
}
