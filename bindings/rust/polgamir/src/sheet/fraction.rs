//! Fractions: what is entered, and what it comes to, without a float.

use std::cmp::Ordering;

use super::natural::Natural;

/// A fraction, not always in its lowest terms. 0 has no sign.
#[derive(Debug, Clone)]
pub struct Fraction {
    negative: bool,
    top: Natural,
    bottom: Natural,
}

/// Which whole number stands for a fraction.
#[derive(Debug, Clone, Copy, PartialEq, Eq)]
pub enum Rounding {
    /// The greatest that is not above it.
    Down,
    /// The least that is not below it.
    Up,
    /// The nearest; of two, the one further from 0.
    Nearest,
}

impl Fraction {
    /// A whole number.
    pub fn whole(number: i64) -> Fraction {
        Fraction::of(number < 0, Natural::from(u128::from(number.unsigned_abs())), Natural::from(1))
    }

    /// A fraction of naturals, the second above 0.
    fn of(negative: bool, top: Natural, bottom: Natural) -> Fraction {
        Fraction { negative: negative && !top.is_zero(), top, bottom }
    }

    /// The number of digits with or without a point among them, and of a power of ten.
    pub fn read(negative: bool, digits: &str, power: i32) -> Fraction {
        let (before, after) = digits.split_once('.').unwrap_or((digits, ""));
        let number = Natural::read(&format!("{before}{after}"));
        let power = power - after.len() as i32;
        match power < 0 {
            true => Fraction::of(negative, number, Natural::ten_to(power.unsigned_abs())),
            false => Fraction::of(negative, number.times(&Natural::ten_to(power.unsigned_abs())), Natural::from(1)),
        }
    }

    /// Whether it is 0.
    pub fn is_zero(&self) -> bool {
        self.top.is_zero()
    }

    /// Whether it is below 0.
    pub fn is_negative(&self) -> bool {
        self.negative
    }

    /// The product of two fractions.
    pub fn times(&self, other: &Fraction) -> Fraction {
        Fraction::of(self.negative != other.negative, self.top.times(&other.top), self.bottom.times(&other.bottom))
    }

    /// The quotient by a fraction that is not 0.
    pub fn over(&self, other: &Fraction) -> Fraction {
        Fraction::of(self.negative != other.negative, self.top.times(&other.bottom), self.bottom.times(&other.top))
    }

    /// The difference of two fractions.
    pub fn minus(&self, other: &Fraction) -> Fraction {
        let (left, right) = (self.top.times(&other.bottom), other.top.times(&self.bottom));
        let bottom = self.bottom.times(&other.bottom);
        match (self.negative != other.negative, left.cmp(&right)) {
            (true, _) => Fraction::of(self.negative, left.plus(&right), bottom),
            (false, Ordering::Less) => Fraction::of(!self.negative, right.minus(&left), bottom),
            (false, _) => Fraction::of(self.negative, left.minus(&right), bottom),
        }
    }

    /// The size, without the sign.
    pub fn size(&self) -> Fraction {
        Fraction { negative: false, ..self.clone() }
    }

    /// The whole number that stands for the fraction, where 64 bits hold it.
    pub fn rounded(&self, rounding: Rounding) -> Option<i64> {
        let size = self.rounded_size(rounding).to_i64()?;
        Some(if self.negative { -size } else { size })
    }

    /// The size of the whole number that stands for the fraction.
    fn rounded_size(&self, rounding: Rounding) -> Natural {
        let (whole, left) = self.top.divided(&self.bottom);
        let further = match rounding {
            Rounding::Down => self.negative && !left.is_zero(),
            Rounding::Up => !self.negative && !left.is_zero(),
            Rounding::Nearest => left.plus(&left) >= self.bottom,
        };
        whole.plus(&Natural::from(u128::from(further)))
    }

    /// The decimal number of at most so many significant digits that stands for the
    /// fraction, without noughts at its end.
    pub fn shown(&self, digits: u32, rounding: Rounding) -> String {
        if self.is_zero() {
            return "0".into();
        }
        let power = digits as i32 - 1 - self.magnitude();
        let number = self.times(&ten_to(power)).rounded_size(rounding);
        let sign = if self.negative { "-" } else { "" };
        format!("{sign}{}", with_point(number.digits(), power))
    }

    /// The least number of three significant digits whose square is not below
    /// the fraction, which is above 0.
    pub fn root_shown(&self) -> String {
        let magnitude = self.magnitude().div_euclid(2);
        let square = self.times(&ten_to(4 - 2 * magnitude));
        let enough = |root: &u64| Fraction::whole((root * root) as i64).minus(&square).negative;
        let root = (100..1000).find(|root| !enough(root)).unwrap_or(1000);
        with_point(root.to_string(), 2 - magnitude)
    }

    /// The power of ten of the first significant digit of a fraction that is not 0.
    fn magnitude(&self) -> i32 {
        let (above, below) = (self.top.digits().len() as i32, self.bottom.digits().len() as i32);
        let magnitude = above - below;
        let (top, bottom) = match magnitude < 0 {
            true => (self.top.times(&Natural::ten_to(magnitude.unsigned_abs())), self.bottom.clone()),
            false => (self.top.clone(), self.bottom.times(&Natural::ten_to(magnitude.unsigned_abs()))),
        };
        if top < bottom {
            magnitude - 1
        } else {
            magnitude
        }
    }

    /// The nearest double-precision float, for what is shown and never for what is planned.
    pub fn to_f64(&self) -> f64 {
        self.shown(25, Rounding::Nearest).parse().unwrap_or(f64::NAN)
    }
}

/// Fractions are equal where they stand for one number.
impl PartialEq for Fraction {
    fn eq(&self, other: &Fraction) -> bool {
        self.minus(other).is_zero()
    }
}

/// Ten to a power, perhaps below 0.
fn ten_to(power: i32) -> Fraction {
    Fraction::read(false, "1", power)
}

/// Decimal digits divided by ten to a power, as a decimal number without noughts at its end.
fn with_point(digits: String, power: i32) -> String {
    if power <= 0 {
        return digits + &"0".repeat(power.unsigned_abs() as usize);
    }
    let digits = format!("{digits:0>width$}", width = power as usize + 1);
    let (whole, after) = digits.split_at(digits.len() - power as usize);
    match after.trim_end_matches('0') {
        "" => whole.into(),
        after => format!("{whole}.{after}"),
    }
}

#[cfg(test)]
mod tests {
    use super::{Fraction, Rounding};

    fn quotient(top: i64, bottom: i64) -> Fraction {
        Fraction::whole(top).over(&Fraction::whole(bottom))
    }

    #[test]
    fn whole_numbers_stand_for_fractions() {
        let each = |top, bottom| {
            [Rounding::Down, Rounding::Up, Rounding::Nearest].map(|rounding| quotient(top, bottom).rounded(rounding))
        };
        assert_eq!(each(7, 2), [Some(3), Some(4), Some(4)]);
        assert_eq!(each(-7, 2), [Some(-4), Some(-3), Some(-4)]);
        assert_eq!(each(10, 3), [Some(3), Some(4), Some(3)]);
        assert_eq!(each(-6, 2), [Some(-3); 3]);
        assert_eq!(each(0, 5), [Some(0); 3]);
    }

    #[test]
    fn numbers_are_shown_in_short() {
        let shown = |top, bottom, digits| quotient(top, bottom).shown(digits, Rounding::Nearest);
        assert_eq!([shown(1, 3, 9), shown(2, 3, 3), shown(-2, 3, 3)], ["0.333333333", "0.667", "-0.667"]);
        assert_eq!([shown(21, 50, 9), shown(0, 7, 9), shown(123_456, 1, 3)], ["0.42", "0", "123000"]);
        assert_eq!([shown(9996, 10_000, 3), shown(1, 1_000_000, 3), shown(1000, 1, 9)], ["1", "0.000001", "1000"]);
        assert_eq!(quotient(1, 3).shown(3, Rounding::Up), "0.334");
        assert_eq!(quotient(1, 3).to_f64(), 1.0 / 3.0);
    }

    #[test]
    fn roots_are_shown_from_above() {
        let root = |top, bottom| quotient(top, bottom).root_shown();
        assert_eq!([root(2, 1), root(4, 1), root(1, 2), root(99, 1)], ["1.42", "2", "0.708", "9.95"]);
        assert_eq!([root(1, 10_000), root(1, 30), root(999_999, 1_000_000)], ["0.01", "0.183", "1"]);
    }

    #[test]
    fn decimals_are_read() {
        assert_eq!(Fraction::read(true, "2.50", 0), quotient(-5, 2));
        assert_eq!(Fraction::read(false, ".5", 3), Fraction::whole(500));
        assert_eq!(Fraction::read(false, "12", -3), quotient(3, 250));
        assert!(!Fraction::read(true, "0.0", 5).is_negative());
    }
}
