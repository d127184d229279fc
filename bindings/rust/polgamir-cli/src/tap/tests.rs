//! Records made from known poles: the truth lies within the stated spread.

use std::f64::consts::PI;
use std::fmt::Write;

use super::{lines, read, Tap};

/// Random numbers, always the same from a seed.
struct Random(u64);

impl Random {
    /// A number from 0 to 1: xorshift.
    fn next(&mut self) -> f64 {
        self.0 ^= self.0 << 13;
        self.0 ^= self.0 >> 7;
        self.0 ^= self.0 << 17;
        (self.0 >> 11) as f64 / (1_u64 << 53) as f64
    }

    /// A number of a range.
    fn within(&mut self, from: f64, to: f64) -> f64 {
        from + (to - from) * self.next()
    }

    /// A number of the normal distribution: Box and Muller.
    fn normal(&mut self) -> f64 {
        (-2.0 * (1.0 - self.next()).ln()).sqrt() * (2.0 * PI * self.next()).cos()
    }
}

/// One rate of a pole: its half period in seconds, each swing by the one before, and how far it
/// goes.
#[derive(Debug, Clone, Copy)]
struct Rate {
    half: f64,
    ratio: f64,
    size: f64,
}

impl Rate {
    /// The deflection at a time after the tap: a swing of which each half
    /// period is the ratio of the one before.
    fn at(&self, time: f64, phase: f64) -> f64 {
        self.size * self.ratio.powf(time / self.half) * (PI * time / self.half + phase).sin()
    }
}

/// A pole, and how it was recorded.
#[derive(Debug, Clone)]
struct Made {
    rates: Vec<Rate>,
    /// The size of the noise, and how much of it goes on from sample to sample.
    noise: f64,
    follows: f64,
    /// Seconds before the tap that are on the record; below 0 for a record that starts after it.
    before: f64,
    /// The recorder's limit.
    limit: f64,
    samples: usize,
    /// Samples a second, and how uneven they are.
    rate: f64,
    uneven: f64,
}

impl Made {
    /// A pole of one rate, recorded well.
    fn drawn(random: &mut Random) -> Made {
        let half = random.within(0.15, 1.5);
        let rate = random.within(10.0, 30.0) / half;
        Made {
            rates: vec![Rate { half, ratio: random.within(0.65, 0.99), size: random.within(1.0, 9.0) }],
            noise: random.within(0.005, 0.05),
            follows: 0.0,
            before: 0.0,
            limit: f64::MAX,
            samples: (random.within(10.0, 20.0) * half * rate) as usize,
            rate,
            uneven: random.within(0.0, 0.3),
        }
    }

    /// The record: an offset, a drift, either sign, the noise by the size of the swing, and the
    /// limit.
    fn text(&self, random: &mut Random) -> String {
        let sign = if random.next() < 0.5 { -1.0 } else { 1.0 };
        // A strong drift would hold the record at its limit.
        let strongest = if self.limit < f64::MAX { 0.005 } else { 0.1 };
        let (offset, drift) = (random.within(-50.0, 50.0), random.within(-strongest, strongest) * self.rates[0].size);
        let (phase, scale) = (random.within(0.0, 2.0 * PI), self.rates[0].size);
        let (mut text, mut noise) = (String::from("time;deflection\n"), 0.0);
        for index in 0..self.samples {
            let time = (index as f64 + self.uneven * random.next()) / self.rate;
            let after = time - self.before;
            let phases = [if self.before > 0.0 { 0.0 } else { phase }, 0.3];
            let swing = |(rate, phase): (&Rate, f64)| if after < 0.0 { 0.0 } else { rate.at(after, phase) };
            let swing: f64 = self.rates.iter().zip(phases).map(swing).sum();
            noise = self.follows * noise + (1.0 - self.follows.powi(2)).sqrt() * random.normal();
            let value = sign * swing + drift * time + self.noise * scale * noise;
            let _ = writeln!(text, "{:.6};{:.6}", time + 7.0, offset + value.clamp(-self.limit, self.limit));
        }
        text
    }
}

/// Whether a truth lies within the ends of an entry, as they are printed.
fn holds(printed: &str, name: &str, truth: f64) -> bool {
    let line = printed.lines().find(|line| line.starts_with(name)).unwrap_or_default();
    let ends = line.split('#').nth(1).unwrap_or_default().split([' ', ';']).filter_map(|word| word.parse().ok());
    matches!(ends.take(2).collect::<Vec<f64>>()[..], [low, high] if low <= truth && truth <= high)
}

/// Of a hundred records, how many were fitted with as many rates as the pole has, and
/// how often the truth lies within the stated spread: of the half period, of the ratio,
/// and of the second half period.
fn counted(seed: u64, make: impl Fn(&mut Random) -> Made) -> [usize; 4] {
    let mut counts = [0; 4];
    let mut random = Random(seed);
    for _ in 0..100 {
        let made = make(&mut random);
        let text = made.text(&mut random);
        let tap: Tap = read(&text, None, None).unwrap_or_else(|told| panic!("{made:?}: {told}"));
        let printed = lines("made", &tap);
        let mut rates = made.rates.clone();
        rates.sort_by(|one, other| one.ratio.total_cmp(&other.ratio));
        counts[0] += usize::from(tap.rates.len() == rates.len());
        counts[1] += usize::from(holds(&printed, "half period", rates[0].half));
        counts[2] += usize::from(holds(&printed, "shrinks", rates[0].ratio));
        counts[3] += usize::from(rates.get(1).is_none_or(|rate| holds(&printed, "second half period", rate.half)));
    }
    counts
}

/// The truth lies within in 95 of 100, and the number of rates is right as often.
fn assert_found(seed: u64, make: impl Fn(&mut Random) -> Made) {
    let counts = counted(seed, make);
    assert!(counts.iter().all(|&count| count >= 95), "{counts:?}");
}

#[test]
fn a_pole_with_noise_is_found() {
    assert_found(0x5EED_0001, Made::drawn);
}

/// Noise that goes on from sample to sample, as behind a filter, neither narrows the
/// spread nor passes for a second rate.
#[test]
fn a_pole_with_noise_that_goes_on_is_found() {
    assert_found(0x5EED_0008, |random| Made { follows: random.within(0.3, 0.8), ..Made::drawn(random) });
}

#[test]
fn a_pole_that_is_recorded_before_the_tap_is_found() {
    assert_found(0x5EED_0002, |random| {
        let made = Made::drawn(random);
        let before = random.within(0.5, 3.0) * made.rates[0].half;
        Made { before, samples: made.samples + (before * made.rate) as usize, ..made }
    });
}

#[test]
fn a_pole_whose_record_starts_late_is_found() {
    assert_found(0x5EED_0003, |random| {
        let made = Made::drawn(random);
        let rates = vec![Rate { ratio: random.within(0.8, 0.99), ..made.rates[0] }];
        Made { before: -random.within(0.5, 3.0) * rates[0].half, rates, ..made }
    });
}

#[test]
fn a_pole_whose_record_is_clipped_is_found() {
    assert_found(0x5EED_0004, |random| {
        let made = Made::drawn(random);
        let rates = vec![Rate { ratio: random.within(0.8, 0.99), ..made.rates[0] }];
        Made { limit: random.within(0.4, 0.8) * rates[0].size, rates, noise: made.noise.min(0.02), ..made }
    });
}

#[test]
fn a_pole_that_swings_at_two_rates_is_found() {
    assert_found(0x5EED_0005, |random| {
        let made = Made::drawn(random);
        let first = Rate { ratio: random.within(0.7, 0.9), ..made.rates[0] };
        let second = Rate {
            half: first.half * random.within(0.25, 0.8),
            ratio: random.within(0.93, 0.995),
            size: first.size * random.within(0.2, 0.8),
        };
        let (rate, samples) = (2.5 * made.rate, made.samples * 5 / 2);
        Made { rates: vec![first, second], noise: made.noise.min(0.03), rate, samples, ..made }
    });
}

/// What is missing in a record that shows no swing, or not enough of it.
#[test]
fn records_that_show_too_little_are_told() {
    let mut random = Random(0x5EED_0006);
    let steady = Made { samples: 400, rate: 40.0, noise: 0.01, uneven: 0.0, ..Made::drawn(&mut random) };
    let rates = vec![Rate { half: 0.5, ratio: 0.9, size: 3.0 }];
    let good = Made { rates, ..steady };
    let told = |made: Made, random: &mut Random| read(&made.text(random), None, None).expect_err("too little");
    let short = told(Made { samples: 50, ..good.clone() }, &mut random);
    assert!(
        short.starts_with("expected at least 2 swings there and back above the noise, found 1.")
            || short.contains("found 0."),
        "{short}"
    );
    let quiet = told(
        Made { rates: vec![Rate { size: 0.0, ..good.rates[0] }, Rate { size: 1e-9, ..good.rates[0] }], ..good.clone() },
        &mut random,
    );
    assert!(quiet.starts_with("expected a swing, found"), "{quiet}");
    let coarse = told(Made { rate: 5.0, samples: 60, ..good.clone() }, &mut random);
    assert!(coarse.starts_with("expected at least 4 samples in each half period"), "{coarse}");
    let text = good.text(&mut random);
    let gapped: String = text
        .lines()
        .enumerate()
        .filter(|(line, _)| !(60..110).contains(line))
        .map(|(_, line)| format!("{line}\n"))
        .collect();
    let told = read(&gapped, None, None).expect_err("a gap");
    assert!(told.starts_with("expected samples in every half period of 0.5"), "{told}");
    assert!(read("1 5\n2 5\n3 5\n4 5\n", None, None).expect_err("short").contains("at least 16"));
    let flat: String = (0..40).map(|index| format!("{index} 5\n")).collect();
    assert_eq!(read(&flat, None, None).expect_err("flat"), "expected a swing, found samples that are all the same");
}

/// Another push is left out, and what was before it is used.
#[test]
fn another_push_is_left_out() {
    let mut random = Random(0x5EED_0007);
    let good = Made {
        rates: vec![Rate { half: 0.42, ratio: 0.9, size: 1.0 }],
        noise: 0.02,
        follows: 0.0,
        before: 0.0,
        limit: f64::MAX,
        samples: 1200,
        rate: 100.0,
        uneven: 0.0,
    };
    let (first, second) = (good.text(&mut random), Rate { half: 0.42, ratio: 0.9, size: 0.9 });
    let pushed: String = first
        .lines()
        .map(|line| {
            match line
                .split_once(';')
                .and_then(|(time, value)| Some((time.parse::<f64>().ok()? - 7.0, value.parse::<f64>().ok()?)))
            {
                Some((time, value)) if time >= 6.0 => format!("{time};{}\n", value + second.at(time - 6.0, 1.0)),
                Some((time, value)) => format!("{time};{value}\n"),
                None => format!("{line}\n"),
            }
        })
        .collect();
    let tap = read(&pushed, None, None).expect("a tap");
    let printed = lines("pushed", &tap);
    assert_eq!(tap.rates.len(), 1, "{printed}");
    assert!(printed.contains("# Left out: from 5.") || printed.contains("# Left out: from 6"), "{printed}");
    assert!(holds(&printed, "half period", 0.42) && holds(&printed, "shrinks", 0.9), "{printed}");
}
