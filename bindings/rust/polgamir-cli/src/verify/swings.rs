//! The sway that a table leaves, over every swing list of an axis, from its acceleration cells
//! alone.

use polgamir::Axis;

use super::big::Big;

/// A rate at which the pole of an axis swings: a swing list g of it has first·g(i + half
/// period) + second·g(i) = 0 for every i.
#[derive(Debug, Clone, Copy, PartialEq, Eq)]
pub struct Rate {
    /// The weight of the later entry, without a divisor in common with the other one.
    pub first: u32,
    /// The weight of the earlier entry.
    pub second: u32,
    /// The half period in ticks, at least 1.
    pub half_period: u32,
}

/// The rates of an axis: none without a blend, two with a second half period.
pub fn rates(axis: &Axis) -> Vec<Rate> {
    let mut rates = Vec::new();
    if let (Some(weight), true) = (axis.damping.weight(), axis.half_period > 0) {
        // 256 − B has the same powers of 2 as B, and no other divisor in common
        let common = weight & weight.wrapping_neg();
        let common = common.min(128);
        rates.push(Rate { first: (256 - weight) / common, second: weight / common, half_period: axis.half_period });
    }
    rates.extend(axis.second_half_period.map(|half_period| Rate { first: 1, second: 1, half_period }));
    rates
}

/// The greatest sway that any swing list with no entry above 1 in size leaves, in thousandths of a
/// fine step per tick², rounded upward: demand 3 allows 1,000 for each tick of the arrival.
///
/// The entries of a list that are a whole number of half periods apart are powers of −second/first
/// times one of them, and each such family is free of the others. So the greatest sway is the sum
/// over the families of the size of Σ change(k) × (−second/first)^j, where row k meets the family's
/// entry j. It is worked out in whole numbers. A later tick than the arrival sees the same
/// families, each times a factor of at most 1.
pub fn greatest_sway(rate: Rate, accelerations: &[i64]) -> u64 {
    let Rate { first, second, half_period } = rate;
    let arrival = accelerations.len() - 1;
    let highest = arrival / half_period as usize;
    let power = (0..highest).fold(Big::from_size(1), |power, _| power.times(first.into()));
    let mut sum = Big::default();
    for family in 0..(half_period as usize).min(arrival + 1) {
        let (mut entry, mut left) = (Big::from_size(1), Big::default());
        for j in 0..=highest {
            let change = (family + j * half_period as usize <= arrival)
                .then(|| change(accelerations, arrival - family - j * half_period as usize));
            left = left.times(first.into()).plus(&entry.times(change.unwrap_or(0)));
            entry = entry.times(-i128::from(second));
        }
        sum = sum.plus(&left.size());
    }
    least_multiple(&sum.times(1000), &power)
}

/// The change of acceleration at a row; before row 0 it is 0.
fn change(accelerations: &[i64], row: usize) -> i128 {
    let before = row.checked_sub(1).map_or(0, |before| accelerations[before]);
    i128::from(accelerations[row]) - i128::from(before)
}

/// The least number of times that a size has to be taken to be no smaller than another; the
/// greatest number where that is more.
fn least_multiple(of: &Big, size: &Big) -> u64 {
    let (mut low, mut high) = (0, u64::MAX);
    while low < high {
        let middle = low + (high - low) / 2;
        match of.is_no_larger_than(&size.times(middle.into())) {
            true => high = middle,
            false => low = middle + 1,
        }
    }
    low
}

#[cfg(test)]
mod tests {
    use super::*;

    const UNDAMPED: Rate = Rate { first: 1, second: 1, half_period: 1 };

    /// Case D: accelerations 128, 0, −128, 0 with half period 1. The list +1, −1, ..
    /// gives 128 + 128 − 128 − 128 = 0.
    #[test]
    fn case_d_leaves_nothing() {
        assert_eq!(greatest_sway(UNDAMPED, &[128, 0, -128, 0]), 0);
    }

    /// One cell off by one is seen: its two changes meet entries of opposite signs, 1 + 1.
    #[test]
    fn a_cell_off_by_one() {
        assert_eq!(greatest_sway(UNDAMPED, &[128, 1, -128, 0]), 2000);
    }

    /// Weights 171 and 85, half period 2, rows 0 to 2: row 2 and row 0 are of one
    /// family, row 1 of the other. With changes 171, −100, 85 the first leaves |85 −
    /// 171 × 85/171| = 0 and the second 100.
    #[test]
    fn families_of_a_damped_pole() {
        let rate = Rate { first: 171, second: 85, half_period: 2 };
        assert_eq!(greatest_sway(rate, &[171, 71, 156]), 100_000);
    }
}
