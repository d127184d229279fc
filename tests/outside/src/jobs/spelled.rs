//! Jobs as words, whole and damaged.

use crate::random::Random;
use crate::reference::{fits_a_word, word, Job, Target};

/// The words of the method's case C, as it prints them. The asked arrival is in word 1.
pub const CASE_C: [u32; 11] = [
    0x1000_0001,
    0x2000_0004,
    0x3000_0000,
    0x4000_0000,
    0x5000_000A,
    0x6000_0001,
    0x7000_0000,
    0x8000_0080,
    0x9000_0001,
    0xA000_0000,
    0xF000_0000,
];

/// A position's words: one of the kind, after one of kind 14 where it does not fit a single word.
fn position(kind: u32, position: i64) -> Vec<u32> {
    let long = (!fits_a_word(position)).then(|| word(14, position >> 28));
    long.into_iter().chain([word(kind, position)]).collect()
}

/// A job in words, with the weight of a damping that was measured.
pub fn words(job: &Job) -> Vec<u32> {
    let mut list = vec![word(1, i64::from(job.mask)), word(2, i64::from(job.asked))];
    for (_, axis) in job.set() {
        list.extend(position(3, axis.start_position));
        list.push(word(4, axis.start_velocity));
        list.push(word(5, i64::from(axis.speed_limit)));
        list.push(word(6, i64::from(axis.acceleration_limit)));
        list.push(word(7, i64::from(axis.half_period)));
        list.push(word(8, axis.weight()));
        list.extend(axis.second.map(|second| word(13, i64::from(second))));
        list.extend(position(9, axis.target.position()));
        list.push(word(10, axis.target.velocity()));
        if let Target::Moving { acceleration, tick, .. } = axis.target {
            list.push(word(11, acceleration));
            list.push(word(12, tick));
        }
    }
    list.push(word(15, 0));
    list
}

/// The kinds of the words of an axis, in an order that is allowed.
fn kinds(random: &mut Random) -> Vec<u32> {
    let mut kinds: Vec<u32> = (3..=if random.once_in(2) { 10 } else { 12 }).collect();
    for (before, kind) in [(9, 14), (9, 13), (3, 14)] {
        if random.once_in(5) {
            kinds.insert(before - 3, kind);
        }
    }
    kinds
}

/// Words of the kinds that are allowed next, most of the time, with any payloads.
pub fn stray_words(random: &mut Random) -> Vec<u32> {
    let mask = random.between(1, 63) as u32;
    let mut all = vec![2];
    for _ in 0..mask.count_ones() {
        all.extend(kinds(random));
    }
    all.push(15);
    let mut list = vec![word(1, i64::from(mask))];
    for kind in all {
        let kind = if random.once_in(100) { random.below(16) as u32 } else { kind };
        let small = i64::from(kind != 15) * random.between(0, 9);
        let payload = if random.once_in(20) { i64::from(payload(random)) } else { small };
        list.push(word(kind, payload));
    }
    list
}

/// Words with one thing or several wrong: a bit, a kind, a payload, a word too few
/// or too many, two words swapped.
pub fn damaged_words(random: &mut Random, words: &[u32]) -> Vec<u32> {
    let mut list = words.to_vec();
    for _ in 0..random.between(1, 2) {
        let at = random.below(list.len().max(1));
        match random.below(9) {
            0 if at < list.len() => list[at] ^= 1 << random.below(32),
            1 if at < list.len() => list[at] = list[at] & 0x0FFF_FFFF | (random.below(16) as u32) << 28,
            2 if at < list.len() => list[at] = list[at] & 0xF000_0000 | payload(random),
            3 if at < list.len() => list.truncate(at),
            4 if at < list.len() => drop(list.remove(at)),
            5 => list.insert(at, random.word() as u32),
            6 => list.push(random.pick(&[word(15, 0), word(11, 0), word(3, 0), 0])),
            7 if at < list.len() => {
                let other = random.below(list.len());
                list.swap(at, other);
            }
            8 => lengthen(random, &mut list),
            _ => list.push(random.word() as u32),
        }
    }
    list
}

/// Puts a word of kind 14 before a position's word, or changes the one that is there.
fn lengthen(random: &mut Random, list: &mut Vec<u32>) {
    let positions: Vec<usize> = (0..list.len()).filter(|&at| matches!(list[at] >> 28, 3 | 9)).collect();
    if positions.is_empty() {
        return;
    }
    let at = random.pick(&positions);
    let high = match random.below(3) {
        0 => random.between(-64, 63),
        1 => random.between(-1, 0),
        _ => random.pick(&[-65, -64, 63, 64, 1 << 20, -(1 << 27), (1 << 27) - 1]),
    };
    if random.once_in(2) {
        list[at] = list[at] & 0xF000_0000 | random.pick(&[0, 1, (1 << 27) - 1, 1 << 27, (1 << 28) - 1]);
    }
    if at > 0 && list[at - 1] >> 28 == 14 {
        list[at - 1] = word(14, high);
    } else {
        list.insert(at, word(14, high));
    }
}

fn payload(random: &mut Random) -> u32 {
    let ends =
        [0, 1, 63, 64, 127, 128, 129, 255, 256, 257, 4096, 4097, 65_536, 65_537, 1 << 20, (1 << 20) + 1, 1 << 27];
    match random.below(3) {
        0 => random.pick(&ends),
        1 => random.pick(&ends).wrapping_neg() & 0x0FFF_FFFF,
        _ => random.word() as u32 & 0x0FFF_FFFF,
    }
}
