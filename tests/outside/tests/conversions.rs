//! Request 2.11, the converter: the library and the reference agree on random old jobs, whole and
//! damaged, on the answer and on every lent word; and the library plans a converted job to the
//! table that the old rules give the old one.

use outside::jobs::{self, word, Reach};
use outside::library;
use outside::plain::{asked, flying, job, one, passing, to};
use outside::random::Random;
use outside::reference::{self, Answer, Axis, Job};

/// The answers and the lent words agree, with `count` words lent. Answers the converted words.
fn agrees(words: &[u32], count: usize) -> Result<Vec<u32>, Answer> {
    let mut got: Vec<u32> = (0..count as u32).map(|i| !i).collect();
    let mut want = got.clone();
    let converted = library::convert(words, &mut got);
    assert_eq!(converted, reference::convert(words, &mut want), "{words:08X?}");
    assert_eq!(got, want, "{words:08X?}");
    converted.map(|count| got[..count].to_vec())
}

/// The converted job's table by the library is that of the old job by the old
/// rules, and both have one answer.
fn equal_tables(old: &[u32], new: &[u32]) -> u32 {
    let old = reference::decode(old).expect("a job that is converted is well spelled");
    let mut want = vec![7; 3 * 6 * 100];
    let mut got = want.clone();
    let answer = old.plan_by_old_rules(&mut want);
    assert_eq!(library::plan_words(new, &mut got), answer, "{old:?}");
    assert_eq!(got, want, "{old:?}");
    answer.number
}

#[test]
fn random_conversions_agree() {
    let mut random = Random::new(61);
    let mut numbers = [0; 19];
    let mut lengthened = 0;
    let mut planned = [0; 19];
    for _ in 0..6_000 {
        let reach = if random.once_in(3) { Reach::Quick } else { Reach::Near };
        let job = jobs::old_job(&mut random, reach);
        let words = jobs::words(&job);
        let damaged = jobs::damaged_words(&mut random, &words);
        let of_damaged = jobs::words(&jobs::damaged_job(&mut random, &job));
        for words in [words, damaged, of_damaged] {
            let most = words.len() + 12;
            let count = match random.below(6) {
                0 => random.below(most),
                1 => words.len() + random.below(3),
                _ => most + random.below(9),
            };
            let converted = agrees(&words, count);
            numbers[converted.as_ref().map_or_else(|refused| refused.number, |_| 0) as usize] += 1;
            let Ok(new) = converted else { continue };
            lengthened += usize::from(new.len() > words.len());
            // A job that seeks its least arrival is copied, and may search for long.
            if new.len() > words.len() {
                planned[equal_tables(&words, &new) as usize] += 1;
            } else {
                assert_eq!(new, words);
            }
        }
    }
    eprintln!("conversions by number {numbers:?}, {lengthened} of them longer than the job, planned {planned:?}");
    for number in [0, 1, 2, 14, 3, 4, 5, 15, 6, 16, 17, 10] {
        assert!(numbers[number] > 5, "{number}: {numbers:?}");
    }
    assert!(lengthened > 1_000 && planned[0] > 500 && planned[8] > 100, "{lengthened} {planned:?}");
}

/// Stray words, with payloads of every size.
#[test]
fn stray_words_agree() {
    let mut random = Random::new(62);
    let mut accepted = 0;
    for _ in 0..10_000 {
        let words = jobs::stray_words(&mut random);
        let count = random.below(120);
        accepted += usize::from(agrees(&words, count).is_ok());
    }
    assert!(accepted > 5, "{accepted}");
}

#[test]
fn f_and_g_converted() {
    for tick in [1, 2, 38, 39] {
        let new = asked(one(passing(10, i64::from(tick))), tick);
        let old = jobs::words(&asked(one(flying(10)), tick));
        assert_eq!(agrees(&old, 13), Ok(jobs::words(&new)));
        assert_eq!(agrees(&old, 12), Err(Answer { number: 10, place: 13, mask: 0, arrival: 0 }));
        assert_eq!(equal_tables(&old, &jobs::words(&new)), if tick == 1 || tick == 39 { 0 } else { 8 });
    }
    let g = jobs::words(&asked(job(&[passing(10, 39), to(1)]), 39));
    let old = jobs::words(&asked(job(&[flying(10), to(1)]), 39));
    assert_eq!(agrees(&old, 40), Ok(g.clone()));
    assert_eq!(equal_tables(&old, &g), 0);
    let refused = Answer { number: 17, place: 0, mask: 0, arrival: 0 };
    assert_eq!(agrees(&jobs::words(&one(flying(10))), 40), Err(refused));
}

/// Every mask of six axes that fly, each with all the words that an axis can have: up to 81
/// converted words. Every number of lent words about those needed.
#[test]
fn every_mask_and_every_length() {
    for mask in 1..64 {
        let axis = |i: usize| Axis {
            second: (i % 2 == 0).then_some(3),
            start_position: 1 << 30,
            ..flying((1 << 30) + 500 * i as i64)
        };
        let words = jobs::words(&Job { mask, asked: 60, axes: [0, 1, 2, 3, 4, 5].map(axis), windows: None });
        let needed = words.len() + 2 * mask.count_ones() as usize;
        for count in [0, 1, words.len(), needed - 1, needed, needed + 1, needed + 50] {
            assert_eq!(agrees(&words, count).is_ok(), count >= needed);
        }
        let new = agrees(&words, needed).unwrap();
        equal_tables(&words, &new);
        // Converted once more it is copied.
        assert_eq!(agrees(&new, needed), Ok(new));
    }
}

/// Asked arrivals and target velocities at their ends.
#[test]
fn ends() {
    for asked in [0, 1, 2, 4_095, 4_096, 4_097, (1 << 28) - 1] {
        for velocity in [-(1 << 27), -21, -20, -1, 0, 1, 20, 21, (1 << 27) - 1] {
            let mut words = jobs::words(&one(flying(10)));
            words[1] = word(2, asked);
            words[9] = word(10, velocity);
            let converted = agrees(&words, 20);
            let fits = asked <= 4_096 && velocity.abs() <= 20 && (asked != 0 || velocity == 0);
            assert_eq!(converted.is_ok(), fits, "asked {asked}, velocity {velocity}");
        }
    }
}
