//! Random tours: legs of some ticks, valid and damaged.

use super::damaged::{strange_damping, with_unsigned, SIGNED_ENDS, UNSIGNED_ENDS};
use super::drawn::near_axis;
use super::on_rail;
use crate::random::Random;
use crate::reference::{Axis, Stop, Tour, MOST_STOPS, UNSET};

fn count(random: &mut Random) -> usize {
    match random.below(40) {
        0 => MOST_STOPS + 1,
        1 => MOST_STOPS,
        2 => MOST_STOPS - 1,
        _ => random.below(7),
    }
}

fn dwell(random: &mut Random) -> u32 {
    match random.below(8) {
        0 => 4_096,
        1 => random.between(0, 4_096) as u32,
        _ => random.between(0, 9) as u32,
    }
}

/// A tour whose legs an axis of small limits makes in some ticks.
pub fn tour(random: &mut Random) -> (Tour, Vec<Stop>) {
    let mask = if random.once_in(4) { random.between(1, 63) as u32 } else { 1 << random.below(6) };
    let mut axes = [UNSET; 6];
    for (i, slot) in axes.iter_mut().enumerate() {
        if mask >> i & 1 == 1 {
            let axis = near_axis(random, 12);
            *slot = Axis { start_velocity: 0, target: UNSET.target, ..axis };
        }
    }
    let mut from = axes.map(|axis| axis.start_position);
    let mut stops = Vec::new();
    for _ in 0..count(random) {
        let still = random.once_in(6);
        for (position, axis) in from.iter_mut().zip(&axes) {
            let most = i64::from(axis.speed_limit) * 9;
            *position = on_rail(*position + if still { 0 } else { random.between(-most, most) });
        }
        stops.push(Stop { positions: from, dwell: dwell(random) });
    }
    (Tour { mask, axes }, stops)
}

/// A tour with one value or several at an end of its type or its range, on axes of the mask and off
/// it.
pub fn damaged_tour(random: &mut Random, tour: &Tour, stops: &[Stop]) -> (Tour, Vec<Stop>) {
    let (mut tour, mut stops) = (*tour, stops.to_vec());
    for _ in 0..random.between(1, 2) {
        let (i, at) = (random.below(6), random.below(stops.len().max(1)));
        match random.below(7) {
            0 => tour.mask = random.pick(&[0, 64, 65, 1 << 31, u32::MAX, tour.mask | 1 << i, tour.mask ^ 1 << i]),
            1 => tour.axes[i].start_position = random.pick(&SIGNED_ENDS),
            2 => tour.axes[i] = with_unsigned(tour.axes[i], random.below(5), random.pick(&UNSIGNED_ENDS)),
            3 => tour.axes[i].damping = strange_damping(random),
            4 if at < stops.len() => stops[at].dwell = random.pick(&[4_096, 4_097, 65_536, 1 << 31, u32::MAX]),
            5 if at < stops.len() => stops[at].positions[i] = random.pick(&SIGNED_ENDS),
            _ => stops.extend_from_within(..),
        }
    }
    (tour, stops)
}
