//! Whole numbers of any size, for sums of powers that no machine word holds.

use std::cmp::Ordering;

/// A whole number: a sign and its size in 64-bit digits, the lowest first, without zeros at the
/// end.
#[derive(Debug, Clone, PartialEq, Eq, Default)]
pub struct Big {
    negative: bool,
    digits: Vec<u64>,
}

impl Big {
    /// A size.
    pub fn from_size(size: u64) -> Big {
        Big { negative: false, digits: if size == 0 { Vec::new() } else { vec![size] } }
    }

    /// This number times a factor.
    pub fn times(&self, factor: i128) -> Big {
        let size = factor.unsigned_abs();
        debug_assert!(size <= u128::from(u64::MAX), "a factor has 64 bits");
        let mut digits = Vec::with_capacity(self.digits.len() + 1);
        let mut carry = 0;
        for digit in &self.digits {
            let product = u128::from(*digit) * size + carry;
            digits.push(product as u64);
            carry = product >> 64;
        }
        digits.push(carry as u64);
        Big { negative: self.negative != (factor < 0), digits }.trimmed()
    }

    /// This number and another one, added.
    pub fn plus(&self, other: &Big) -> Big {
        if self.negative == other.negative {
            return Big { negative: self.negative, digits: added(&self.digits, &other.digits) }.trimmed();
        }
        match sizes(&self.digits, &other.digits) {
            Ordering::Less => Big { negative: other.negative, digits: less(&other.digits, &self.digits) }.trimmed(),
            _ => Big { negative: self.negative, digits: less(&self.digits, &other.digits) }.trimmed(),
        }
    }

    /// This number without its sign.
    pub fn size(mut self) -> Big {
        self.negative = false;
        self
    }

    /// Whether the size of this number is at most another's.
    pub fn is_no_larger_than(&self, other: &Big) -> bool {
        sizes(&self.digits, &other.digits) != Ordering::Greater
    }

    fn trimmed(mut self) -> Big {
        while self.digits.last() == Some(&0) {
            self.digits.pop();
        }
        self.negative &= !self.digits.is_empty();
        self
    }
}

/// Which of two sizes without zeros at the end is the larger.
fn sizes(a: &[u64], b: &[u64]) -> Ordering {
    a.len().cmp(&b.len()).then_with(|| a.iter().rev().cmp(b.iter().rev()))
}

fn added(a: &[u64], b: &[u64]) -> Vec<u64> {
    let (long, short) = if a.len() < b.len() { (b, a) } else { (a, b) };
    let mut digits = Vec::with_capacity(long.len() + 1);
    let mut carry = 0;
    for (place, digit) in long.iter().enumerate() {
        let sum = u128::from(*digit) + u128::from(short.get(place).copied().unwrap_or(0)) + carry;
        digits.push(sum as u64);
        carry = sum >> 64;
    }
    digits.push(carry as u64);
    digits
}

/// The first size less the second, which is no larger.
fn less(a: &[u64], b: &[u64]) -> Vec<u64> {
    let mut borrowed = false;
    let mut digits = Vec::with_capacity(a.len());
    for (place, digit) in a.iter().enumerate() {
        let (rest, first) = digit.overflowing_sub(b.get(place).copied().unwrap_or(0));
        let (rest, second) = rest.overflowing_sub(u64::from(borrowed));
        digits.push(rest);
        borrowed = first || second;
    }
    digits
}

#[cfg(test)]
mod tests {
    use super::*;

    /// 255^20 − 255^20 + 7, and that 2^64 × −1 + 1 is no larger than 2^64.
    #[test]
    fn sums_and_products() {
        let power = (0..20).fold(Big::from_size(1), |power, _| power.times(255));
        let seven = power.plus(&power.times(-1)).plus(&Big::from_size(7));
        assert_eq!(seven, Big::from_size(7));
        let word = Big::from_size(u64::MAX).plus(&Big::from_size(1));
        let below = word.times(-1).plus(&Big::from_size(1));
        assert!(below.is_no_larger_than(&word) && !word.is_no_larger_than(&below));
        assert_eq!(below.plus(&word), Big::from_size(1));
        assert_eq!(below.size(), Big::from_size(u64::MAX));
    }
}
