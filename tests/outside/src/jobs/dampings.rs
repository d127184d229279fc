//! Random dampings that pass their check: weights by hand, and the ratios and peaks that give them,
//! at both ends of what gives a weight.

use std::sync::OnceLock;

use crate::random::Random;
use crate::reference::{Damping, Single};

const ONE: u32 = 0x3F80_0000;

/// The bits of the least ratio that gives each weight from 1 to 128, and those just above 1 after
/// them.
fn least_ratios() -> &'static [u32; 130] {
    static LEAST: OnceLock<[u32; 130]> = OnceLock::new();
    LEAST.get_or_init(|| {
        let mut least = [1; 130];
        for weight in 2..=128 {
            let (mut below, mut from) = (least[weight - 1], ONE);
            while from - below > 1 {
                let middle = (below + from) / 2;
                if Damping::Ratio(Single(middle)).weight() as usize >= weight {
                    from = middle;
                } else {
                    below = middle;
                }
            }
            least[weight] = from;
        }
        least[129] = ONE + 1;
        least
    })
}

/// The bits of the least and of the greatest ratio that give a weight.
pub fn ratio_ends(weight: usize) -> [u32; 2] {
    [least_ratios()[weight], least_ratios()[weight + 1] - 1]
}

/// A ratio that gives a weight: often the least or the greatest.
fn ratio(random: &mut Random, weight: usize) -> u32 {
    let [least, greatest] = ratio_ends(weight);
    match random.below(4) {
        0 => least,
        1 => greatest,
        _ => random.between(i64::from(least), i64::from(greatest)) as u32,
    }
}

/// Two peaks of about a ratio that gives a weight: of the size that a tap test shows, or of any
/// size.
fn peaks(random: &mut Random, weight: usize) -> Damping {
    let ratio = f32::from_bits(ratio(random, weight));
    let first = match random.below(4) {
        0 => f32::from_bits(random.between(1, 0x7F7F_FFFF) as u32),
        1 => random.between(1, 999) as f32,
        _ => random.between(1, 99_999) as f32 / 8.0,
    };
    let measured = Damping::Peaks(Single(first.to_bits()), Single((first * ratio).to_bits()));
    if measured.is_refused() {
        Damping::Weight(weight as u32)
    } else {
        measured
    }
}

/// A damping: undamped two times in three.
pub fn damping(random: &mut Random) -> Damping {
    let weight = if random.once_in(3) { random.between(1, 128) as usize } else { 128 };
    match random.below(4) {
        0 => Damping::Ratio(Single(ratio(random, weight))),
        1 => peaks(random, weight),
        _ => Damping::Weight(weight as u32),
    }
}
