//! Swing lists: whole entries g(0) to g(m) with A g(i + h) + B g(i) = 0 for every i from 0 to m -
//! h.

use crate::random::Random;

/// B / A in lowest terms.
fn lowest(b: i128, a: i128) -> (i128, i128) {
    let (mut x, mut y) = (a, b);
    while y != 0 {
        (x, y) = (y, x % y);
    }
    (b / x, a / x)
}

/// The entries of a residue class, first one first: g, -g b/a, g b²/a², .. are whole because g
/// has the factor a for each step.
fn class(random: &mut Random, b: i128, a: i128, steps: u32) -> Vec<i128> {
    let seed = i128::from(random.between(-9, 9));
    (0..=steps).map(|n| seed * (-b).pow(n) * a.pow(steps - n)).collect()
}

/// The largest m, up to `most`, for which every class of a list has entries
/// below 2^60 times a small seed.
pub fn longest(h: usize, second_weight: i64, most: usize) -> usize {
    let (_, a) = lowest(i128::from(second_weight), i128::from(256 - second_weight));
    if a == 1 {
        return most;
    }
    let steps = (1..).take_while(|&n| a.checked_pow(n).is_some_and(|p| p < 1 << 60)).last().unwrap_or(0);
    most.min(h * (steps as usize + 1) - 1)
}

/// A swing list for tick m, where `m` is at most `longest`. Some classes are
/// zero, some lists zero altogether.
pub fn list(random: &mut Random, h: usize, second_weight: i64, m: usize) -> Vec<i128> {
    let (b, a) = lowest(i128::from(second_weight), i128::from(256 - second_weight));
    let mut g = vec![0; m + 1];
    let only = if random.once_in(3) { Some(random.below(h)) } else { None };
    let zero = random.once_in(8);
    for first in 0..h.min(m + 1) {
        if zero || only.is_some_and(|one| one != first) {
            continue;
        }
        let steps = ((m - first) / h) as u32;
        for (n, entry) in class(random, b, a, steps).into_iter().enumerate() {
            g[first + n * h] = entry;
        }
    }
    g
}

/// Whether the list meets its definition.
pub fn is_swing(g: &[i128], h: usize, second_weight: i64) -> bool {
    let (a, b) = (i128::from(256 - second_weight), i128::from(second_weight));
    (h..g.len()).all(|i| a * g[i] + b * g[i - h] == 0)
}

/// The sway left at tick m = g.len() - 1: the changes of acceleration over the rows, each times its
/// entry.
pub fn sway(accelerations: &[i64], g: &[i128]) -> i128 {
    let m = g.len() - 1;
    let mut before = 0;
    let mut left = 0;
    for (k, &acceleration) in accelerations.iter().enumerate() {
        left += i128::from(acceleration - before) * g[m - k];
        before = acceleration;
    }
    left
}
