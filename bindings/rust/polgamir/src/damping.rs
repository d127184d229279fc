//! The damping of a pole, as it is known: the weight of its blend, or what a tap test shows.

use std::fmt;

/// How far a swing of the pole shrinks in half a period.
///
/// A crew notes what the tap test shows, a ratio or two peaks. The planner works out the weight
/// from it:
///
/// ```
/// use polgamir::Damping;
///
/// assert_eq!(Damping::Ratio(0.5).weight(), Some(85));
/// assert_eq!(Damping::Peaks { first: 31.0, second: 31.0 }.weight(), Some(128));
/// assert_eq!(Damping::Ratio(1.5).weight(), None); // a swing that grows is refused, with 12
/// ```
#[derive(Debug, Clone, Copy, PartialEq)]
pub enum Damping {
    /// The blend's second weight B, 1 to 128: each swing is B / (256 − B) of the one before it. 128
    /// stands for a swing that does not shrink.
    Weight(u32),
    /// A swing by the one half a period before it, both counted positive: above 0 and at most 1.
    Ratio(f32),
    /// Two peaks of the swing, half a period apart and both counted positive. Their ratio is
    /// second by first, rounded once.
    Peaks {
        /// The first peak, above 0.
        first: f32,
        /// The peak half a period later, above 0 and not above the first.
        second: f32,
    },
}

impl Damping {
    /// A swing that does not shrink.
    pub const NONE: Damping = Damping::Weight(128);

    /// The blend's second weight: the one given, or that of the measured ratio by the planner's own
    /// rule, the largest B from 1 to 128 that is at most the once-rounded product of the ratio and
    /// 256 − B, or 1 if there is none. `None` where refusal 12 would come: the first peak is not
    /// above 0, or the ratio is not a number above 0 and at most 1.
    pub fn weight(&self) -> Option<u32> {
        let ratio = match *self {
            Damping::Weight(weight) => return Some(weight),
            Damping::Ratio(ratio) => ratio,
            Damping::Peaks { first, second } if first > 0.0 => second / first,
            Damping::Peaks { .. } => return None,
        };
        let is_met = |weight: &u32| *weight as f32 <= ratio * (256 - weight) as f32;
        (ratio > 0.0 && ratio <= 1.0).then(|| (1..=128).rev().find(is_met).unwrap_or(1))
    }

    /// A swing by the one half a period before it, as it was entered: the ratio, the second peak by
    /// the first, or what the weight stands for. The weight that is planned with is rounded from
    /// it. `None` where refusal 12 would come, or 5 of a weight.
    pub fn ratio(&self) -> Option<f64> {
        // The decimal number that was written, and not the nearest single-precision float.
        let as_written = |number: f32| number.to_string().parse::<f64>().ok();
        let ratio = match *self {
            Damping::Weight(weight @ 1..=128) => f64::from(weight) / f64::from(256 - weight),
            Damping::Weight(_) => return None,
            Damping::Ratio(ratio) => as_written(ratio)?,
            Damping::Peaks { first, second } => as_written(second)? / as_written(first)?,
        };
        self.weight().map(|_| ratio)
    }

    /// Whether it is what a tap test shows, from which the weight is worked out.
    pub const fn is_measured(&self) -> bool {
        !matches!(self, Damping::Weight(_))
    }
}

/// As a line of a set-up sheet: `weight 113`, `shrinks 0.8`, `peaks 31 25`.
impl fmt::Display for Damping {
    fn fmt(&self, f: &mut fmt::Formatter<'_>) -> fmt::Result {
        match self {
            Damping::Weight(weight) => write!(f, "weight {weight}"),
            Damping::Ratio(ratio) => write!(f, "shrinks {ratio}"),
            Damping::Peaks { first, second } => write!(f, "peaks {first} {second}"),
        }
    }
}

#[cfg(test)]
mod tests {
    use super::*;

    /// A ratio is the one entered, and not that of its weight.
    #[test]
    fn ratios_are_as_entered() {
        assert_eq!(Damping::Ratio(0.98).ratio(), Some(0.98));
        assert_eq!(Damping::Peaks { first: 41.5, second: 36.2 }.ratio(), Some(36.2 / 41.5));
        assert_eq!(Damping::Weight(128).ratio(), Some(1.0));
        assert_eq!(Damping::Weight(64).ratio(), Some(1.0 / 3.0));
        for refused in [Damping::Ratio(1.5), Damping::Peaks { first: 1.0, second: 2.0 }, Damping::Weight(129)] {
            assert_eq!(refused.ratio(), None);
        }
    }
}
