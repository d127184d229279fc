//! Values at the ends of their types and ranges, one field at a time and on every axis; every mask;
//! tables of every length about the cells needed.

use outside::jobs::{ratio_ends, with_signed, with_unsigned, word, words, SIGNED_ENDS, SINGLE_ENDS, UNSIGNED_ENDS};
use outside::library;
use outside::reference::{self, Answer, Axis, Damping, Job, Single, Target, Window, Windows, UNSET};

const FIXED: Axis = Axis {
    start_position: 0,
    start_velocity: 0,
    speed_limit: 1_048_576,
    acceleration_limit: 65_536,
    half_period: 2,
    damping: Damping::Weight(128),
    second: None,
    target: Target::Fixed { position: 7, velocity: 0 },
};

const MOVING: Axis = Axis { target: Target::Moving { position: 7, velocity: 3, acceleration: 0, tick: 2 }, ..FIXED };

/// The answers and the cells agree. An asked arrival keeps the library from a long search; a job
/// without one reaches its target soon.
fn agrees(job: &Job, cells: usize) -> Answer {
    let mut got: Vec<i64> = (0..cells as i64).map(|i| !i).collect();
    let mut want = got.clone();
    let answer = library::plan_typed(job, &mut got);
    assert_eq!(answer, job.plan(&mut want), "{job:?}");
    assert!(got == want, "{job:?}");
    answer
}

/// Each of some fields at each of some values, on every axis: among six axes, and alone. `rows` of
/// a table are lent to six axes and enough to one.
fn at_every_end<T: Copy>(fields: usize, ends: &[T], with: fn(Axis, usize, T) -> Axis, asked: u32, rows: usize) {
    for axis in [FIXED, MOVING] {
        for i in 0..6 {
            for j in 0..fields {
                for &value in ends {
                    let mut job = Job { mask: 63, asked, axes: [axis; 6], windows: None };
                    job.axes[i] = with(axis, j, value);
                    agrees(&job, 3 * 6 * rows);
                    job.mask = 1 << i;
                    agrees(&job, 3 * (asked as usize + 1));
                }
            }
        }
    }
}

#[test]
fn every_signed_value_at_every_end() {
    at_every_end(6, &SIGNED_ENDS, with_signed, 4_096, 20);
}

#[test]
fn every_unsigned_value_at_every_end() {
    at_every_end(5, &UNSIGNED_ENDS, with_unsigned, 300, 301);
}

/// The answers and the cells agree from words.
fn words_agree(words: &[u32], cells: usize) -> Answer {
    let mut got: Vec<i64> = (0..cells as i64).map(|i| !i).collect();
    let mut want = got.clone();
    let answer = library::plan_words(words, &mut got);
    assert_eq!(answer, reference::plan_words(words, &mut want), "{words:08X?}");
    assert!(got == want, "{words:08X?}");
    answer
}

/// Positions of two words at the ends of either payload, on every axis, as
/// start and as target and as both.
#[test]
fn long_positions_at_every_end() {
    let job = Job { mask: 63, asked: 9, axes: [FIXED; 6], windows: None };
    let long = |kind, high, low| [word(14, high), word(kind, low)];
    for i in 0..6 {
        let at = words(&Job { mask: (1 << i) - 1, ..job }).len() - 1;
        for high in [-(1 << 27), -65, -64, -2, -1, 0, 1, 62, 63, 64, (1 << 27) - 1] {
            for low in [0, 1, (1 << 27) - 1, 1 << 27, (1 << 28) - 1] {
                let mut changed = words(&job);
                changed.splice(at + 6..at + 7, long(9, high, low));
                words_agree(&changed, 3 * 6 * 10);
                changed.splice(at..at + 1, long(3, high, low));
                let answer = words_agree(&changed, 3 * 6 * 10);
                assert!(answer.number == 0 || (answer.number, answer.place) == (14, at as u64));
            }
        }
    }
}

/// A job of six axes, one of which has the damping, and one of that axis alone.
fn damped(i: usize, damping: Damping) -> [Job; 2] {
    let mut axes = [FIXED; 6];
    axes[i].damping = damping;
    [63, 1 << i].map(|mask| Job { mask, asked: 9, axes, windows: None })
}

#[test]
fn every_float_at_every_end() {
    for i in 0..6 {
        for first in SINGLE_ENDS {
            let ratio = damped(i, Damping::Ratio(first));
            let peaks = SINGLE_ENDS.iter().flat_map(|&second| damped(i, Damping::Peaks(first, second)));
            for job in peaks.chain(ratio) {
                agrees(&job, 3 * 6 * 10);
            }
        }
    }
}

#[test]
fn both_ends_of_every_weight() {
    for weight in 1..=128 {
        for bits in ratio_ends(weight) {
            for job in damped(weight % 6, Damping::Ratio(Single(bits))) {
                assert_eq!(agrees(&job, 3 * 6 * 10).number, 0);
                // Peaks whose quotient is the ratio itself.
                let one = Single(1_f32.to_bits());
                agrees(&damped(weight % 6, Damping::Peaks(one, Single(bits)))[1], 3 * 10);
            }
        }
    }
}

#[test]
fn two_values_at_ends_on_two_axes() {
    for (first, second) in [(0, 1), (2, 5), (4, 3)] {
        for j in 0..6 {
            for k in 0..5 {
                for value in [i64::MIN, 1 << 27, 1 << 34, i64::MAX] {
                    for limit in [0, 129, 257, u32::MAX] {
                        let mut job = Job { mask: 63, asked: 9, axes: [MOVING; 6], windows: None };
                        job.axes[first] = with_signed(MOVING, j, value);
                        job.axes[second] = with_unsigned(MOVING, k, limit);
                        agrees(&job, 3 * 6 * 10);
                    }
                }
            }
        }
    }
}

#[test]
fn every_window_at_every_end() {
    let windowed = |asked, windows| Job { mask: 4, asked, axes: [FIXED; 6], windows: Some(windows) };
    for first in UNSIGNED_ENDS {
        for second in UNSIGNED_ENDS {
            for dwell in [0, 1, 4_096, 4_097, u32::MAX] {
                agrees(&windowed(9, Windows::new(dwell, &[(first, second)])), 3 * 10);
                agrees(&windowed(9, Windows::new(dwell, &[(0, first), (second, u32::MAX)])), 3 * 10);
            }
        }
        let full: Vec<(u32, u32)> = (0..32).map(|i| (i, i + 1)).collect();
        agrees(&windowed(0, Windows { count: first, ..Windows::new(0, &full) }), 3 * 10);
    }
    for place in 0..32 {
        let mut windows = Windows::new(0, &[(1, 2); 32]);
        for (i, window) in windows.list.iter_mut().enumerate() {
            *window = Window { opening: 3 * i as u32, closing: 3 * i as u32 + 3 };
        }
        windows.list[place].closing -= 3;
        let answer = agrees(&windowed(9, windows), 3 * 10);
        assert_eq!((answer.number, answer.place), (13, place as u64));
    }
}

#[test]
fn every_mask_and_every_bit_beyond() {
    for mask in 0..130 {
        agrees(&Job { mask, asked: 0, axes: [FIXED; 6], windows: None }, 3 * 6 * 8);
    }
    for bit in 6..32 {
        let answer = agrees(&Job { mask: 1 | 1 << bit, asked: 0, axes: [FIXED; 6], windows: None }, 100);
        assert_eq!(answer, Answer { number: 1, place: 0, mask: 0, arrival: 0 });
    }
}

#[test]
fn axes_off_the_mask_are_never_looked_at() {
    let wild = Axis {
        start_position: i64::MIN,
        start_velocity: i64::MAX,
        speed_limit: u32::MAX,
        acceleration_limit: 0,
        half_period: u32::MAX,
        damping: Damping::Peaks(Single(u32::MAX), Single(0)),
        second: Some(u32::MAX),
        target: Target::Moving { position: i64::MIN, velocity: i64::MIN, acceleration: i64::MIN, tick: i64::MIN },
    };
    for mask in 1..64u32 {
        let mut axes = [wild; 6];
        for (i, axis) in axes.iter_mut().enumerate() {
            if mask >> i & 1 == 1 {
                *axis = MOVING;
            }
        }
        let job = Job { mask, asked: 0, axes, windows: None };
        let cells = 3 * mask.count_ones() as usize * 12;
        let answer = agrees(&job, cells);
        assert_eq!((answer.number, answer.mask), (0, mask));
    }
}

#[test]
fn asked_arrivals_at_every_end() {
    for asked in UNSIGNED_ENDS.into_iter().chain([3, 4, 5, 4_095]) {
        agrees(&Job { mask: 8, asked, axes: [FIXED; 6], windows: None }, 3 * 4_097);
    }
}

#[test]
fn tables_of_every_length() {
    let job = Job { mask: 0b100101, asked: 6, axes: [FIXED; 6], windows: None };
    for cells in 0..200 {
        let answer = agrees(&job, cells);
        assert_eq!(answer.number, if cells < 3 * 3 * 7 { 10 } else { 0 });
    }
}

#[test]
fn the_largest_table() {
    let mut axes = [MOVING; 6];
    for (i, axis) in axes.iter_mut().enumerate() {
        axis.start_velocity = i as i64 - 3;
        axis.half_period = 50 * i as u32;
    }
    let job = Job { mask: 63, asked: 4_096, axes, windows: None };
    assert_eq!(agrees(&job, 73_746).number, 0);
    assert_eq!(agrees(&job, 73_745).number, 10);
}

#[test]
fn any_number_but_zero_is_a_moving_target() {
    let mut axes = [UNSET; 6];
    axes[2] = MOVING;
    let job = Job { mask: 4, asked: 0, axes, windows: None };
    let mut want = vec![0; 60];
    let answer = job.plan(&mut want);
    for kind in [1, 2, 256, 65_536, 1 << 31, u64::from(u32::MAX)] {
        let mut got = vec![0; 60];
        assert_eq!(library::plan_filled(&job, kind, &mut got), answer);
        assert_eq!(got, want);
    }
}

#[test]
fn many_threads_at_once() {
    let job = Job { mask: 63, asked: 200, axes: [MOVING; 6], windows: None };
    let mut want = vec![0; 3 * 6 * 201];
    let answer = job.plan(&mut want);
    std::thread::scope(|scope| {
        for _ in 0..8 {
            scope.spawn(|| {
                for _ in 0..20 {
                    let mut got = vec![0; want.len()];
                    assert_eq!(library::plan_typed(&job, &mut got), answer);
                    assert_eq!(got, want);
                }
            });
        }
    });
}
