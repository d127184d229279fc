//! Single-precision floats by their bits: exact values, and results rounded
//! once to the nearest, ties to even.

/// A single-precision float, by its bits.
#[derive(Clone, Copy, Debug, PartialEq, Eq)]
pub struct Single(pub u32);

/// What the bits stand for.
enum Value {
    NotANumber,
    Infinite {
        negative: bool,
    },
    /// `digits` times two to the power of `exponent`.
    Finite {
        negative: bool,
        digits: u32,
        exponent: i32,
    },
}

const INFINITY: u32 = 0x7F80_0000;
const NOT_A_NUMBER: u32 = 0x7FC0_0000;
/// The exponent of a float's last digit is at least this.
const LEAST_EXPONENT: i32 = -149;

/// The number of binary digits.
fn digits_of(x: u128) -> i32 {
    128 - x.leading_zeros() as i32
}

/// The float nearest to `numerator` / `denominator` times two to the power of
/// `exponent`; both are above zero.
fn nearest(numerator: u128, denominator: u128, exponent: i32) -> Single {
    // The quotient of both in units of the last digit: its whole part, what is left of
    // it, and by what it was divided.
    let in_units = |last: i32| {
        let up = (exponent - last).max(0);
        let down = (last - exponent).max(0);
        let (n, d) = (numerator << up, denominator << down);
        (n / d, n % d, d)
    };
    let guess = exponent + digits_of(numerator) - digits_of(denominator) - 24;
    let mut last = guess.max(LEAST_EXPONENT);
    if in_units(last).0 >= 1 << 24 {
        last += 1;
    }
    let (floor, left, divisor) = in_units(last);
    let half_or_more = left >= divisor - left;
    let tie = left == divisor - left;
    let digits = floor + u128::from(half_or_more && (!tie || floor % 2 == 1));
    // The digits carry into the exponent of their own accord.
    let bits = ((last - LEAST_EXPONENT) as u128) << 23;
    Single((bits + digits).min(u128::from(INFINITY)) as u32)
}

impl Single {
    fn value(self) -> Value {
        let negative = self.0 >> 31 == 1;
        let (field, fraction) = ((self.0 >> 23 & 0xFF) as i32, self.0 & 0x7F_FFFF);
        match field {
            0xFF if fraction == 0 => Value::Infinite { negative },
            0xFF => Value::NotANumber,
            0 => Value::Finite { negative, digits: fraction, exponent: LEAST_EXPONENT },
            _ => Value::Finite { negative, digits: fraction | 1 << 23, exponent: LEAST_EXPONENT - 1 + field },
        }
    }

    /// A number above zero.
    pub fn is_above_zero(self) -> bool {
        match self.value() {
            Value::NotANumber => false,
            Value::Infinite { negative } => !negative,
            Value::Finite { negative, digits, .. } => !negative && digits > 0,
        }
    }

    /// A number that is at least a whole one above zero.
    pub fn is_at_least(self, whole: u32) -> bool {
        match self.value() {
            Value::NotANumber => false,
            Value::Infinite { negative } => !negative,
            Value::Finite { negative, digits, exponent } => {
                let up = u128::from(digits) << exponent.clamp(0, 104);
                !negative && up >= u128::from(whole) << (-exponent).clamp(0, 90)
            }
        }
    }

    /// This divided by another that is above zero, rounded once.
    pub fn over(self, by: Single) -> Single {
        let sign = self.0 & 1 << 31;
        let size = match (self.value(), by.value()) {
            (Value::NotANumber, _) | (_, Value::NotANumber) => return Single(NOT_A_NUMBER),
            (Value::Infinite { .. }, Value::Infinite { .. }) => return Single(NOT_A_NUMBER),
            (Value::Infinite { .. }, _) => INFINITY,
            (_, Value::Infinite { .. }) | (Value::Finite { digits: 0, .. }, _) => 0,
            (Value::Finite { digits, exponent, .. }, Value::Finite { digits: d, exponent: e, .. }) => {
                nearest(u128::from(digits), u128::from(d), exponent - e).0
            }
        };
        Single(sign | size)
    }

    /// A finite float above zero times a whole number above zero, rounded once.
    pub fn times(self, whole: u32) -> Single {
        match self.value() {
            Value::Finite { negative: false, digits, exponent } => {
                nearest(u128::from(digits) * u128::from(whole), 1, exponent)
            }
            _ => unreachable!("{self:?} is not a finite number above zero"),
        }
    }
}

#[cfg(test)]
mod tests {
    use super::*;
    use crate::random::Random;

    /// A float of any kind and any exponent; or one whose neighbours are of another kind.
    fn any(random: &mut Random) -> Single {
        let ends =
            [0, 1, 0x7F_FFFF, 0x80_0000, 0x3F7F_FFFF, 0x3F80_0000, 0x3F80_0001, 0x7F7F_FFFF, INFINITY, NOT_A_NUMBER];
        match random.below(3) {
            0 => Single(random.pick(&ends) | (random.word() as u32 & 1) << 31),
            1 => Single((random.below(3) as f32 * 64.0 + random.below(64) as f32).to_bits()),
            _ => Single(random.word() as u32),
        }
    }

    fn same(got: Single, want: f32) -> bool {
        got.0 == want.to_bits() || want.is_nan() && got.0 == NOT_A_NUMBER
    }

    #[test]
    fn quotients_are_those_of_the_machine() {
        let mut random = Random::new(41);
        let mut tried = 0;
        while tried < 200_000 {
            let (x, by) = (any(&mut random), any(&mut random));
            if by.is_above_zero() {
                let want = f32::from_bits(x.0) / f32::from_bits(by.0);
                assert!(same(x.over(by), want), "{x:?} {by:?} {want}");
                tried += 1;
            }
        }
    }

    #[test]
    fn products_and_comparisons_are_those_of_the_machine() {
        let mut random = Random::new(42);
        for _ in 0..200_000 {
            let (x, whole) = (any(&mut random), random.between(1, 300) as u32);
            let machine = f32::from_bits(x.0);
            assert_eq!(x.is_above_zero(), machine > 0.0, "{x:?}");
            assert_eq!(x.is_at_least(whole), machine >= whole as f32, "{x:?} {whole}");
            if machine > 0.0 && machine.is_finite() {
                assert!(same(x.times(whole), machine * whole as f32), "{x:?} {whole}");
            }
        }
    }

    /// Every product of a float by 128 to 255 next to a tie, where the last digit decides.
    #[test]
    fn ties_go_to_the_even_float() {
        for whole in [128, 129, 192, 254, 255] {
            for low in 0..4_096 {
                for high in [0x3F80_0000, 0x3F00_0000, 0x3EFF_F000, 0x007F_F000, 0x0000_0000] {
                    let x = Single((high - (high != 0) as u32 * 4_096) + low);
                    if x.0 != 0 {
                        assert!(same(x.times(whole), f32::from_bits(x.0) * whole as f32), "{x:?} {whole}");
                    }
                }
            }
        }
    }
}
