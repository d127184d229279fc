//! Places on the long rail.

use super::on_rail;
use crate::random::Random;
use crate::reference::RAIL;

/// A place anywhere on the rail.
pub fn anywhere(random: &mut Random) -> i64 {
    random.between(*RAIL.start(), *RAIL.end())
}

/// A place to start from: mostly about 0, else anywhere on the rail, or where a position takes a
/// second word, where the payload of that word changes, or where the rail ends.
pub fn place(random: &mut Random) -> i64 {
    match random.below(8) {
        0 => anywhere(random),
        1 => {
            let end = random.pick(&[1 << 27, 1 << 28, 1 << 34]);
            on_rail(random.pick(&[end, -end]) + random.between(-20, 20))
        }
        _ => random.between(-1_000, 1_000),
    }
}
