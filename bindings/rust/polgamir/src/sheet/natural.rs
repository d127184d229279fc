//! Natural numbers of any size, so that what is entered is worked out exactly.

use std::cmp::Ordering;

/// A natural number: its digits to base 2³², the lowest first, the highest not 0.
#[derive(Debug, Clone, PartialEq, Eq, Default)]
pub struct Natural(Vec<u32>);

impl Natural {
    /// A number of decimal digits.
    pub fn read(digits: &str) -> Natural {
        let ten = Natural::from(10);
        let value = |digit: u8| Natural::from(u128::from(digit.saturating_sub(b'0')));
        digits.bytes().fold(Natural::default(), |number, digit| number.times(&ten).plus(&value(digit)))
    }

    /// Ten to a power.
    pub fn ten_to(power: u32) -> Natural {
        (0..power).fold(Natural::from(1), |number, _| number.times(&Natural::from(10)))
    }

    /// Whether it is 0.
    pub fn is_zero(&self) -> bool {
        self.0.is_empty()
    }

    /// The number as a signed one of 64 bits, where it is one.
    pub fn to_i64(&self) -> Option<i64> {
        match *self.0.as_slice() {
            [] => Some(0),
            [low] => Some(low.into()),
            [low, high] => i64::try_from(u64::from(high) << 32 | u64::from(low)).ok(),
            _ => None,
        }
    }

    /// The sum of two numbers.
    pub fn plus(&self, other: &Natural) -> Natural {
        let digit = |number: &Natural, place: usize| u64::from(number.0.get(place).copied().unwrap_or(0));
        let mut carry = 0;
        let digits = (0..=self.0.len().max(other.0.len())).map(|place| {
            let sum = digit(self, place) + digit(other, place) + carry;
            carry = sum >> 32;
            sum as u32
        });
        Natural(digits.collect()).trimmed()
    }

    /// What is left of a number that is not below the one taken away.
    pub fn minus(&self, other: &Natural) -> Natural {
        let mut borrowed = false;
        let digits = self.0.iter().enumerate().map(|(place, &digit)| {
            let taken = other.0.get(place).copied().unwrap_or(0);
            let (less, first) = digit.overflowing_sub(taken);
            let (less, second) = less.overflowing_sub(borrowed.into());
            borrowed = first || second;
            less
        });
        Natural(digits.collect()).trimmed()
    }

    /// The product of two numbers.
    pub fn times(&self, other: &Natural) -> Natural {
        let mut digits = vec![0_u32; self.0.len() + other.0.len()];
        for (place, &digit) in self.0.iter().enumerate() {
            let mut carry = 0;
            for (further, &factor) in other.0.iter().chain(&[0]).enumerate() {
                let Some(cell) = digits.get_mut(place + further) else { break };
                let sum = u64::from(*cell) + u64::from(digit) * u64::from(factor) + carry;
                (*cell, carry) = (sum as u32, sum >> 32);
            }
        }
        Natural(digits).trimmed()
    }

    /// The number as one of 128 bits, where it is one.
    fn to_u128(&self) -> Option<u128> {
        (self.0.len() <= 4).then(|| self.0.iter().rev().fold(0, |number, &digit| number << 32 | u128::from(digit)))
    }

    /// How often a divisor above 0 goes into the number, and what is left: long division, bit
    /// by bit where 128 are not enough.
    pub fn divided(&self, divisor: &Natural) -> (Natural, Natural) {
        if let (Some(number), Some(divisor)) = (self.to_u128(), divisor.to_u128()) {
            return (Natural::from(number / divisor), Natural::from(number % divisor));
        }
        let (mut quotient, mut left) = (vec![0_u32; self.0.len()], Natural::default());
        for bit in (0..32 * self.0.len()).rev() {
            let (place, mask) = (bit / 32, 1 << (bit % 32));
            left = left.plus(&left);
            if self.0[place] & mask != 0 {
                left = left.plus(&Natural::from(1));
            }
            if left >= *divisor {
                left = left.minus(divisor);
                quotient[place] |= mask;
            }
        }
        (Natural(quotient).trimmed(), left)
    }

    /// The decimal digits; 0 has none.
    pub fn digits(&self) -> String {
        let (mut digits, mut number) = (String::new(), self.clone());
        while !number.is_zero() {
            let mut left = 0;
            for digit in number.0.iter_mut().rev() {
                let part = left << 32 | u64::from(*digit);
                (*digit, left) = ((part / 10) as u32, part % 10);
            }
            digits.insert(0, char::from(b'0' + left as u8));
            number = number.trimmed();
        }
        digits
    }

    /// The same number without noughts at its head.
    fn trimmed(mut self) -> Natural {
        while self.0.last() == Some(&0) {
            self.0.pop();
        }
        self
    }
}

impl From<u128> for Natural {
    fn from(number: u128) -> Natural {
        Natural((0..4).map(|place| (number >> (32 * place)) as u32).collect()).trimmed()
    }
}

impl Ord for Natural {
    fn cmp(&self, other: &Natural) -> Ordering {
        self.0.len().cmp(&other.0.len()).then_with(|| self.0.iter().rev().cmp(other.0.iter().rev()))
    }
}

impl PartialOrd for Natural {
    fn partial_cmp(&self, other: &Natural) -> Option<Ordering> {
        Some(self.cmp(other))
    }
}

#[cfg(test)]
mod tests {
    use super::Natural;

    /// 2¹⁰⁰ and 3⁷⁰ by hand from tables; their product and quotient by the school's rules.
    #[test]
    fn large_numbers_are_worked_out() {
        let power =
            |base: u128, exponent: u32| (0..exponent).fold(Natural::from(1), |n, _| n.times(&Natural::from(base)));
        let (twos, threes) = (power(2, 100), power(3, 70));
        assert_eq!(twos.digits(), "1267650600228229401496703205376");
        assert_eq!(threes.digits(), "2503155504993241601315571986085849");
        let sum = twos.times(&threes).plus(&Natural::from(7));
        assert_eq!(sum.divided(&threes), (twos.clone(), Natural::from(7)));
        assert_eq!(Natural::read("1267650600228229401496703205376"), twos);
        assert_eq!(threes.minus(&twos).plus(&twos), threes);
        assert_eq!((Natural::default().digits(), Natural::read("000")), (String::new(), Natural::default()));
        assert_eq!(Natural::read("9223372036854775807").to_i64(), Some(i64::MAX));
        assert_eq!(Natural::read("9223372036854775808").to_i64(), None);
    }
}
