//! Which part of a record is used: from the strongest swing on, without samples at the recorder's
//! limit.

use super::fit::Samples;
use super::record::Record;
use super::spectrum::strongest;

/// How far the first sample is from the middle of its swing, by the one that is furthest.
const NEARLY: f64 = 0.9;

/// The part of a record that is fitted.
#[derive(Debug, Clone)]
pub struct Part {
    /// The time of the record at which it starts.
    pub start: f64,
    /// Its samples, by the time from the start on.
    pub samples: Samples,
    /// How many samples stand at the recorder's limit and are left out, with their neighbours.
    pub clipped: usize,
}

/// The part of a record from its strongest swing on. `None` where nothing moves.
pub fn used(record: &Record) -> Option<Part> {
    let frequency = strongest(&record.times, &record.values)?;
    let period = 2.0 * std::f64::consts::PI / frequency;
    let first = strongest_sample(record, period)?;
    let is_clipped = clipped(&record.values);
    let kept = (first..record.times.len()).filter(|&index| !is_clipped[index]);
    let start = record.times[first];
    let (times, values) = kept.map(|index| (record.times[index] - start, record.values[index])).unzip();
    let clipped = is_clipped[first..].iter().filter(|&&is_clipped| is_clipped).count();
    Some(Part { start, samples: Samples { times, values }, clipped })
}

/// The first sample that is nearly as far from the mean of the period around it as any is. That
/// mean follows the drift, and in a clipped swing many samples are furthest.
fn strongest_sample(record: &Record, period: f64) -> Option<usize> {
    let Record { times, values, .. } = record;
    let last = times.len() - 1;
    let mut sums = vec![0.0];
    for value in values {
        sums.push(sums[sums.len() - 1] + value);
    }
    let away = |index: usize| {
        let middle =
            times[index].clamp(times[0] + period / 2.0, (times[last] - period / 2.0).max(times[0] + period / 2.0));
        let from = times.partition_point(|&time| time < middle - period / 2.0);
        let to = times.partition_point(|&time| time < middle + period / 2.0).max(from + 1);
        (values[index] - (sums[to] - sums[from]) / (to - from) as f64).abs()
    };
    let distances: Vec<f64> = (0..=last).map(away).collect();
    let most = distances.iter().copied().fold(0.0, f64::max);
    distances.iter().position(|&distance| distance >= NEARLY * most).filter(|_| most > 0.0)
}

/// Whether each sample stands at the recorder's limit: the greatest or the least value, met at
/// least six times, three of them in a row. A neighbour of such a sample may have been pushed below
/// the limit by noise alone, so it counts too.
fn clipped(values: &[f64]) -> Vec<bool> {
    let (least, greatest) =
        values.iter().fold((f64::MAX, f64::MIN), |(least, most), &value| (least.min(value), most.max(value)));
    let mut found = vec![false; values.len()];
    for limit in [least, greatest] {
        let at = |index: usize| values[index] == limit;
        let in_a_row = (2..values.len()).any(|index| at(index) && at(index - 1) && at(index - 2));
        if !in_a_row || (0..values.len()).filter(|&index| at(index)).count() < 6 || least == greatest {
            continue;
        }
        for index in (0..values.len()).filter(|&index| at(index)) {
            let last = values.len() - 1;
            for near in &mut found[index.saturating_sub(2)..=(index + 2).min(last)] {
                *near = true;
            }
        }
    }
    found
}

#[cfg(test)]
mod tests {
    use super::*;

    fn record(value: impl Fn(f64) -> f64) -> Record {
        let times: Vec<f64> = (0..600).map(|index| f64::from(index) * 0.01).collect();
        let values = times.iter().map(|&time| value(time)).collect();
        Record { times, values, column: None }
    }

    /// Quiet up to 2 s, then a swing of a period of 1 s on a slope: its strongest sample is one of
    /// the first two peaks, at 2.25 and 2.75 s.
    #[test]
    fn a_swing_starts_at_its_strongest_sample() {
        let swing = |time: f64| {
            if time < 2.0 {
                0.0
            } else {
                (-(time - 2.0) * 0.3).exp() * (std::f64::consts::TAU * (time - 2.0)).sin()
            }
        };
        let part = used(&record(|time| 5.0 + 0.5 * time - swing(time))).expect("a part");
        assert!((part.start - 2.5).abs() < 0.3, "{}", part.start);
        assert_eq!((part.clipped, part.samples.times[0]), (0, 0.0));
    }

    #[test]
    fn samples_at_the_limit_are_left_out() {
        let part =
            used(&record(|time| (2.0 * (-time * 0.5).exp() * (std::f64::consts::TAU * time).cos()).clamp(-1.0, 1.0)))
                .expect("a part");
        assert!(part.clipped > 30, "{}", part.clipped);
        assert!(part.samples.values.iter().all(|value| value.abs() < 1.0));
        assert!(used(&record(|_| 4.0)).is_none());
    }
}
