//! A recorded tap of a pole: from a log of its swing to the lines of a sheet.

mod fit;
mod misfit;
mod part;
mod picture;
mod record;
mod request;
mod solve;
mod spectrum;
#[cfg(test)]
mod tests;
mod text;

use fit::{Fit, Samples, Swing};
use part::Part;
pub use picture::drawn;
use record::Record;
pub use request::Tapped;
pub use text::{lines, shown};

/// How many standard deviations a spread goes to either side: more than 95 of 100 truths lie
/// within.
const WITHIN: f64 = 2.5;

/// The least spread, by its number: clocks and poles are no better than that.
const LEAST_SPREAD: f64 = 1e-4;

/// How much of what is left of one sample may be seen in the next where nothing but noise is left.
const MOST_FOLLOWING: f64 = 0.25;

/// The least swings there and back that a fit is made of.
const LEAST_SWINGS: f64 = 2.0;

/// The least samples in half a period.
const LEAST_RATE: f64 = 4.0;

/// A number with how far the truth may be from it to either side.
#[derive(Debug, Clone, Copy, PartialEq)]
pub struct Spread {
    /// The number.
    pub value: f64,
    /// How far the truth may be from it.
    pub within: f64,
}

/// One rate of the pole.
#[derive(Debug, Clone, Copy, PartialEq)]
pub struct Rate {
    /// Half a period in seconds.
    pub half_period: Spread,
    /// Each swing by the one before it, at most 1.
    pub ratio: Spread,
    /// How many swings there and back stand above the noise.
    pub swings: f64,
}

/// What a record shows.
#[derive(Debug, Clone)]
pub struct Tap {
    record: Record,
    part: Part,
    fit: Fit,
    /// The record's time from which on something else than the swing is seen.
    pushed: Option<f64>,
    /// The rates: one, or two, of which that whose swing shrinks more is the first.
    pub rates: Vec<Rate>,
    /// The mean size of what the fit leaves.
    pub noise: f64,
}

/// Reads a record and fits it.
pub fn read(text: &str, rate: Option<f64>, column: Option<usize>) -> Result<Tap, String> {
    let record = record::read(text, rate, column)?;
    let mut part = part::used(&record).ok_or("expected a swing, found samples that are all the same")?;
    let fit = fitted(&part.samples)?;
    // What a push leaves goes on from sample to sample, as noise does not.
    let before = if fit.follows(&part.samples) > MOST_FOLLOWING { before_a_push(&fit, &part.samples) } else { None };
    match before {
        None => Tap::new(record, part, fit, None),
        Some(before) => {
            let pushed = part.start + before.samples.length();
            part.samples = before.samples;
            Tap::new(record, part, before.fit, Some(pushed))
        }
    }
}

/// One swing or two, whichever the samples show.
fn fitted(samples: &Samples) -> Result<Fit, String> {
    let told = "expected a swing, found nothing that stands out of the noise";
    let still = Fit::of_drift(samples).ok_or(told)?;
    let one = still.with_one_more(samples).ok_or(told)?;
    let two = one.with_one_more(samples).filter(|two| shows(&one, two, samples) && are_apart(two, samples));
    let best = two.unwrap_or(one);
    if shows(&still, &best, samples) {
        Ok(best)
    } else {
        Err(told.into())
    }
}

/// Whether a further swing takes so much away that noise cannot account for it: by the
/// Bayesian information criterion, with a margin. Noise that goes on from sample to
/// sample makes fewer of them count.
fn shows(without: &Fit, with: &Fit, samples: &Samples) -> bool {
    let follow = with.follows(samples).clamp(0.0, 0.99);
    let count = samples.times.len() as f64 * (1.0 - follow) / (1.0 + follow);
    // A record without any noise leaves nothing but the rounding of its floats.
    let least = samples.values.iter().map(|value| value * value).sum::<f64>() * 1e-20;
    let gained = count * ((without.left + least) / (with.left + least)).ln();
    gained > 4.0 * count.max(1.0).ln() + 10.0
}

/// Whether two swings are of two rates, both seen well, and none a small part of the other.
fn are_apart(fit: &Fit, samples: &Samples) -> bool {
    let [one, other] = fit.swings[..] else { return false };
    let ratio = one.frequency / other.frequency;
    let noise = fit.noise(samples);
    let is_seen = |swing: &Swing| swing.swings_above(noise, samples.length()) >= LEAST_SWINGS;
    let sizes = one.size().min(other.size()) / one.size().max(other.size());
    !(0.93..1.07).contains(&ratio) && sizes > 0.02 && is_seen(&one) && is_seen(&other)
}

/// The samples before another push, with their fit.
struct Before {
    samples: Samples,
    fit: Fit,
}

/// The samples before something else than the swing is seen: the longest beginning of which a fit
/// leaves about as little as of any, where the fit of all leaves more than twice that.
fn before_a_push(all: &Fit, samples: &Samples) -> Option<Before> {
    let slowest = all.swings.iter().map(|swing| swing.half_period()).fold(0.0, f64::max);
    let beginning = |length: f64| {
        let samples = samples.up_to(length);
        let fit = fitted(&samples).ok()?;
        Some(Before { samples, fit })
    };
    let tenths = (2..10).map(|tenth| samples.length() * f64::from(tenth) / 10.0);
    let begun: Vec<Before> = tenths.filter(|&length| length > 6.0 * slowest).filter_map(beginning).collect();
    let noise = |before: &Before| before.fit.noise(&before.samples);
    let least = begun.iter().map(noise).min_by(f64::total_cmp)?;
    if all.noise(samples) <= 2.0 * least {
        return None;
    }
    let mut longest = begun.into_iter().rfind(|before| noise(before) <= 1.5 * least)?;
    // On by a quarter of a half period each time, as long as the end is left as small as the rest.
    while let Some(further) = beginning(longest.samples.length() + slowest / 4.0) {
        let rest = further.fit.rest(&further.samples);
        let last = &rest[longest.samples.times.len().min(rest.len())..];
        let size = (last.iter().map(|rest| rest * rest).sum::<f64>() / last.len().max(1) as f64).sqrt();
        if last.is_empty() || size > 2.5 * least || noise(&further) > 1.5 * least {
            break;
        }
        longest = further;
    }
    Some(longest)
}

impl Tap {
    /// What a fit shows, where there is enough to be seen.
    fn new(record: Record, part: Part, fit: Fit, pushed: Option<f64>) -> Result<Tap, String> {
        let samples = &part.samples;
        let noise = fit.noise(samples);
        let covariance = fit.covariance(samples).ok_or("expected a swing, found too little of it to tell its rate")?;
        // What is left may go on from sample to sample: then fewer of them count.
        let follow = fit.follows(samples).clamp(0.0, 0.99);
        let deviation = noise * ((1.0 + follow) / (1.0 - follow)).sqrt();
        let mut rates: Vec<Rate> = (0..fit.swings.len())
            .map(|index| rate(&fit, index, &covariance, deviation, noise, samples.length()))
            .collect();
        rates.sort_by(|one, other| one.ratio.value.total_cmp(&other.ratio.value));
        let tap = Tap { record, part, fit, pushed, rates, noise };
        tap.is_enough()?;
        Ok(tap)
    }

    /// Whether there are swings enough, samples enough in each, and no gap among them.
    fn is_enough(&self) -> Result<(), String> {
        for rate in &self.rates {
            let half = rate.half_period.value;
            if rate.swings < LEAST_SWINGS {
                return Err(format!(
                    "expected at least {LEAST_SWINGS} swings there and back above the noise, found {:.1} of {:.3} s \
                     each: record longer, or tap harder",
                    rate.swings,
                    2.0 * half
                ));
            }
            let times = &self.record.times;
            let from = times.partition_point(|&time| time < self.part.start);
            let to = times.partition_point(|&time| time < self.part.start + 2.0 * half * rate.swings);
            let times = &times[from..to.max(from + 2).min(times.len())];
            let in_half = times.len() as f64 * half / (times[times.len() - 1] - times[0]);
            if in_half < LEAST_RATE {
                return Err(format!(
                    "expected at least {LEAST_RATE} samples in each half period of {half:.3} s, found \
                     {in_half:.1}: record more samples a second"
                ));
            }
            let gaps = times.windows(2).map(|pair| (pair[1] - pair[0], pair[0]));
            if let Some((gap, at)) = gaps.max_by(|one, other| one.0.total_cmp(&other.0)).filter(|(gap, _)| *gap > half)
            {
                return Err(format!(
                    "expected samples in every half period of {half:.3} s, found none for {gap:.3} s from {at:.3} s \
                     on: record without gaps"
                ));
            }
        }
        Ok(())
    }

    /// The record's time at which the last swing is used: where it sinks below
    /// the noise, or the record ends.
    pub fn end(&self) -> f64 {
        let longest = self.rates.iter().map(|rate| 2.0 * rate.half_period.value * rate.swings).fold(0.0, f64::max);
        self.part.start + longest
    }
}

/// A rate with its spreads: the half period π/ω and the ratio e^(−λπ/ω), whose
/// variances follow from those of λ and ω.
fn rate(fit: &Fit, index: usize, covariance: &solve::Matrix, deviation: f64, noise: f64, length: f64) -> Rate {
    let swing = fit.swings[index];
    let (decay, frequency) = (Fit::place_of(index) + 2, Fit::place_of(index) + 3);
    let (half, ratio) = (swing.half_period(), swing.ratio());
    let spread = |by_decay: f64, by_frequency: f64| {
        let variance = by_decay * by_decay * covariance[decay][decay]
            + by_frequency * by_frequency * covariance[frequency][frequency]
            + 2.0 * by_decay * by_frequency * covariance[decay][frequency];
        WITHIN * deviation * variance.max(0.0).sqrt()
    };
    let of_half = spread(0.0, half / swing.frequency).max(LEAST_SPREAD * half);
    let half_period = Spread { value: half, within: of_half };
    let of_ratio = spread(-half * ratio, swing.decay * half * ratio / swing.frequency).max(LEAST_SPREAD * ratio);
    Rate {
        half_period,
        ratio: Spread { value: ratio.min(1.0), within: of_ratio },
        swings: swing.swings_above(noise, length),
    }
}
