//! Random windows, valid and damaged.

use crate::random::Random;
use crate::reference::{Job, Window, Windows, MOST_WINDOWS};

fn dwell(random: &mut Random) -> u32 {
    match random.below(5) {
        0 => 4_096,
        1 => random.between(0, 20) as u32,
        2 => random.between(1, 3) as u32,
        _ => 0,
    }
}

/// Windows about the first ticks; the last one is often open for long.
fn some(random: &mut Random) -> Windows {
    let count = match random.below(8) {
        0 => MOST_WINDOWS,
        _ => random.between(1, 4) as usize,
    };
    let mut windows = Windows::new(dwell(random), &[(0, 0); MOST_WINDOWS][..count]);
    let mut tick = random.between(0, 12);
    for window in &mut windows.list[..count] {
        let closing = tick + random.between(1, 6);
        *window = Window { opening: tick as u32, closing: closing as u32 };
        tick = closing + if random.once_in(2) { 0 } else { random.between(1, 9) };
    }
    if !random.once_in(8) {
        windows.list[count - 1].closing = random.pick(&[4_000, 9_000, 1 << 31, u32::MAX]);
    }
    windows
}

/// The job with windows that pass refusal 13.
pub fn windowed(random: &mut Random, job: &Job) -> Job {
    Job { windows: Some(some(random)), ..*job }
}

/// The job with up to three windows anywhere up to the latest arrival and a little past it.
pub fn late_windowed(random: &mut Random, job: &Job) -> Job {
    let mut ticks: Vec<u32> = (0..2 * random.between(1, 3)).map(|_| random.between(0, 4_200) as u32).collect();
    ticks.sort_unstable();
    ticks.dedup();
    let pairs: Vec<(u32, u32)> = ticks.chunks_exact(2).map(|pair| (pair[0], pair[1])).collect();
    let dwell = random.pick(&[0, 1, 100, 1_000]);
    Job { windows: Some(Windows::new(dwell, &pairs)), ..*job }
}

/// The job with windows that have one thing or several wrong, or at an end.
pub fn badly_windowed(random: &mut Random, job: &Job) -> Job {
    let mut windows = some(random);
    let ends = [0, 1, 2, 4_095, 4_096, 4_097, 1 << 31, u32::MAX - 1, u32::MAX];
    for _ in 0..random.between(1, 2) {
        let at = random.below(windows.count.clamp(1, 32) as usize);
        match random.below(6) {
            0 => windows.count = random.pick(&[0, 31, 32, 33, 64, 1 << 31, u32::MAX]),
            1 => windows.dwell = random.pick(&ends),
            2 => windows.list[at].opening = random.pick(&ends),
            3 => windows.list[at].closing = random.pick(&ends),
            4 => windows.list[at].closing = windows.list[at].opening,
            _ if at > 0 => windows.list[at].opening = windows.list[at - 1].closing.wrapping_sub(1),
            _ => windows.list.swap(at, 1),
        }
    }
    Job { windows: Some(windows), ..*job }
}
