//! An exact fraction, for errors that are no whole number of ticks.

/// A fraction: a numerator by a denominator. It need not be in lowest terms.
#[derive(Debug, Clone, Copy, PartialEq, Eq, Hash)]
pub struct Fraction {
    /// The numerator, with the sign.
    pub numerator: i32,
    /// The denominator; a bound takes 1 to 10,000.
    pub denominator: u32,
}

impl Fraction {
    /// No error.
    pub const ZERO: Fraction = Fraction::new(0, 1);

    /// A numerator by a denominator.
    pub const fn new(numerator: i32, denominator: u32) -> Fraction {
        Fraction { numerator, denominator }
    }

    /// The numerator and the denominator, where the denominator is 1 to 10,000.
    pub(super) fn parts(self) -> Option<(i128, i128)> {
        (1..=10_000).contains(&self.denominator).then(|| (self.numerator.into(), self.denominator.into()))
    }
}

impl From<i32> for Fraction {
    fn from(whole: i32) -> Fraction {
        Fraction::new(whole, 1)
    }
}
