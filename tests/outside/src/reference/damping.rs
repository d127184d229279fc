//! Request 2.3: damping as measured.

use super::Single;

/// How an axis's damping is entered.
#[derive(Clone, Copy, Debug, PartialEq, Eq)]
pub enum Damping {
    /// The second weight, by hand.
    Weight(u32),
    /// The swing ratio.
    Ratio(Single),
    /// Two peaks half a period apart, the first one first.
    Peaks(Single, Single),
}

/// The largest B from 1 to 128 that is at most the once-rounded product of the ratio and
/// 256 - B, or 1 if there is none.
fn weight_of(ratio: Single) -> u32 {
    (1..=128).rev().find(|&b| ratio.times(256 - b).is_at_least(b)).unwrap_or(1)
}

/// A number above 0 and at most 1.
fn is_ratio(ratio: Single) -> bool {
    const ONE: u32 = 0x3F80_0000;
    ratio == Single(ONE) || ratio.is_above_zero() && !ratio.is_at_least(1)
}

impl Damping {
    /// The measured ratio, where there is one that passes refusal 12.
    fn ratio(self) -> Option<Single> {
        let ratio = match self {
            Damping::Weight(_) => return None,
            Damping::Ratio(ratio) => ratio,
            Damping::Peaks(first, _) if !first.is_above_zero() => return None,
            Damping::Peaks(first, second) => second.over(first),
        };
        is_ratio(ratio).then_some(ratio)
    }

    /// Refusal 12.
    pub fn is_refused(self) -> bool {
        !matches!(self, Damping::Weight(_)) && self.ratio().is_none()
    }

    /// The second weight B; that of a damping that is refused has no meaning.
    pub fn weight(self) -> u32 {
        match self {
            Damping::Weight(weight) => weight,
            _ => self.ratio().map_or(0, weight_of),
        }
    }
}

#[cfg(test)]
mod tests {
    use super::*;
    use crate::plain::{job, one, to, PLAIN};
    use crate::random::Random;
    use crate::reference::Axis;

    fn single(x: f32) -> Single {
        Single(x.to_bits())
    }

    fn ratio(x: f32) -> Damping {
        Damping::Ratio(single(x))
    }

    fn peaks(first: f32, second: f32) -> Damping {
        Damping::Peaks(single(first), single(second))
    }

    /// The same by the machine's floats.
    fn second_opinion(ratio: f32) -> u32 {
        (1..=128).rev().find(|&b| b as f32 <= ratio * (256 - b) as f32).unwrap_or(1)
    }

    #[test]
    fn weights() {
        assert_eq!(ratio(1.0).weight(), 128);
        assert_eq!(ratio(0.5).weight(), 85);
        assert_eq!(ratio(0.999).weight(), 127);
        // Two single roundings, neither exact nor in double.
        assert_eq!(peaks(97.0, 31.0).weight(), 61);
        assert_eq!(peaks(155.0, 101.0).weight(), 100);
        assert_eq!(peaks(201.0, 55.0).weight(), 55);
        assert_eq!(peaks(474.579_467_773_437_5, 211.817_947_387_695_3).weight(), 78);
        assert_eq!(ratio(0.007_874_015_718_698_502).weight(), 2);
        assert_eq!(peaks(1e-45, 1e-45).weight(), 128);
        for bits in [1, 2, 0x40_0000, 0x7F_FFFF, 0x80_0000] {
            assert!(!Damping::Ratio(Single(bits)).is_refused());
            assert_eq!(Damping::Ratio(Single(bits)).weight(), 1);
        }
    }

    /// For every weight the least ratio that gives it, and the float before that one.
    #[test]
    fn both_sides_of_every_edge() {
        let mut edge = 1;
        for weight in 2..=128 {
            let (mut below, mut from) = (edge, 0x3F80_0000);
            while from - below > 1 {
                let middle = (below + from) / 2;
                if weight_of(Single(middle)) >= weight {
                    from = middle;
                } else {
                    below = middle;
                }
            }
            edge = from;
            assert_eq!((weight_of(Single(edge - 1)), weight_of(Single(edge))), (weight - 1, weight));
            // The edge is weight / (256 - weight) but for the roundings.
            let exact = f64::from(weight) / f64::from(256 - weight);
            assert!((f64::from(f32::from_bits(edge)) / exact - 1.0).abs() < 1e-6, "{weight}");
            for bits in edge - 9..=edge + 9 {
                if bits <= 0x3F80_0000 {
                    assert_eq!(weight_of(Single(bits)), second_opinion(f32::from_bits(bits)), "{bits}");
                }
            }
        }
    }

    #[test]
    fn the_machine_has_the_same_opinion() {
        let mut random = Random::new(43);
        for _ in 0..20_000 {
            let bits = random.between(1, 0x3F80_0000) as u32;
            assert_eq!(weight_of(Single(bits)), second_opinion(f32::from_bits(bits)), "{bits}");
            let first = f32::from_bits(random.between(1, 0x7F7F_FFFF) as u32);
            let second = first * f32::from_bits(random.between(0x3C00_0000, 0x3F80_0000) as u32);
            let quotient = second / first;
            let damping = peaks(first, second);
            assert_eq!(damping.is_refused(), !(quotient > 0.0 && quotient <= 1.0), "{first} {second}");
            if !damping.is_refused() {
                assert_eq!(damping.weight(), second_opinion(quotient), "{first} {second}");
            }
        }
    }

    #[test]
    fn twelve() {
        let (nan, inf) = (f32::NAN, f32::INFINITY);
        for x in [0.0, -0.0, -1.0, -1e-45, 1.000_000_1, 2.0, inf, -inf, nan] {
            assert!(ratio(x).is_refused(), "{x}");
        }
        for (first, second) in [
            (1e38, 1e-38),
            (0.0, 0.0),
            (0.0, 1.0),
            (-0.0, 1.0),
            (-2.0, -1.0),
            (2.0, -1.0),
            (2.0, 0.0),
            (2.0, -0.0),
            (1.0, 1.000_000_1),
            (1.0, inf),
            (inf, 1.0),
            (inf, inf),
            (-inf, -inf),
            (nan, 1.0),
            (1.0, nan),
        ] {
            assert!(peaks(first, second).is_refused(), "{first} {second}");
        }
    }

    #[test]
    fn where_twelve_stands() {
        let with = |damping| Axis { damping, ..PLAIN };
        let refused = |job: crate::reference::Job| {
            let answer = job.plan(&mut [0; 300]);
            (answer.number, answer.place, answer.mask, answer.arrival)
        };
        // Also where h is 0, over all axes before any 5, after all 4 and after 3.
        assert_eq!(refused(one(with(ratio(0.0)))), (12, 0, 0, 0));
        let late = Axis { half_period: 257, ..PLAIN };
        assert_eq!(refused(job(&[late, with(ratio(0.0))])), (12, 1, 0, 0));
        assert_eq!(refused(job(&[with(ratio(0.0)), Axis { speed_limit: 0, ..PLAIN }])), (4, 1, 0, 0));
        assert_eq!(refused(crate::plain::asked(one(with(ratio(0.0))), 4_097)), (3, 1, 0, 0));
        assert_eq!(refused(job(&[late, with(ratio(0.5))])), (5, 0, 0, 0));
    }

    #[test]
    fn the_table_is_that_of_the_weight_by_hand() {
        let with = |damping| one(Axis { half_period: 2, damping, ..to(30) });
        let (mut measured, mut by_hand) = ([0; 90], [0; 90]);
        let answer = with(ratio(0.5)).plan(&mut measured);
        assert_eq!(answer, with(Damping::Weight(85)).plan(&mut by_hand));
        assert_eq!(measured, by_hand);
        assert_eq!(answer.number, 0);
    }
}
