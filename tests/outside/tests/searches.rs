//! Request 2.12, planning between servo turns: the library and the reference agree on random
//! searches, valid and damaged, from words and from typed values; and searches that are continued
//! end in the report of an undivided one.

use outside::jobs::{self, Reach, UNSIGNED_ENDS};
use outside::library;
use outside::plain::{asked, one, to};
use outside::random::{seen_in_rounds, Random};
use outside::reference::{decode, search_words, Answer, Axis, Job, Report, Search, Searched, Windows};

/// One candidate past the latest.
const BEYOND: u32 = 4_097;

/// A job with or without windows, whole or damaged.
fn drawn(random: &mut Random) -> Job {
    let job = match random.below(16) {
        0 => jobs::late_job(random),
        1 => jobs::job(random, Reach::Far),
        2..=5 => jobs::job(random, Reach::Quick),
        _ => jobs::job(random, Reach::Near),
    };
    match random.below(8) {
        0 | 1 => jobs::windowed(random, &job),
        2 => jobs::late_windowed(random, &job),
        3 => jobs::badly_windowed(random, &job),
        4 => jobs::damaged_job(random, &job),
        _ => job,
    }
}

/// A first candidate: the first of all, about the tick that is found, anywhere, or at an end.
fn first(random: &mut Random, whole: &Search) -> u32 {
    let tick = match whole {
        Ok(Searched { report: Report::Found(tick), .. }) => *tick,
        _ => random.between(1, i64::from(BEYOND)) as u32,
    };
    match random.below(8) {
        0..=2 => 1,
        3 | 4 => (tick + 2 - random.below(6) as u32 % (tick + 2)).clamp(1, BEYOND),
        5 => random.between(1, i64::from(BEYOND)) as u32,
        _ => random.pick(&[0, 1, 2, BEYOND - 2, BEYOND - 1, BEYOND, BEYOND + 1, 1 << 31, u32::MAX]),
    }
}

/// A budget: about what the search takes, or at an end.
fn budget(random: &mut Random, first: u32, whole: &Search) -> u32 {
    let needed = match whole {
        Ok(Searched { report: Report::Found(tick), .. }) if *tick >= first => *tick - first + 1,
        _ => BEYOND.saturating_sub(first),
    };
    match random.below(4) {
        0 => needed.saturating_add_signed(random.between(-1, 1) as i32),
        1 => random.between(0, 40) as u32,
        2 => random.between(0, 4_200) as u32,
        _ => random.pick(&[0, 1, 4_095, 4_096, 4_097, 1 << 31, u32::MAX - 1, u32::MAX]),
    }
}

/// How often each report and each number was given.
#[derive(Debug, Default)]
struct Seen {
    found: usize,
    none: usize,
    spent: usize,
    numbers: [usize; 19],
}

impl Seen {
    fn count(&mut self, search: &Search) {
        *match search {
            Ok(Searched { report: Report::Found(_), .. }) => &mut self.found,
            Ok(Searched { report: Report::None, .. }) => &mut self.none,
            Ok(Searched { report: Report::Spent(_), .. }) => &mut self.spent,
            Err(Answer { number, .. }) => &mut self.numbers[*number as usize],
        } += 1;
    }
}

#[test]
fn random_searches_agree() {
    let seen = seen_in_rounds(71, 2_500, |random, seen: &mut Seen| {
        let job = drawn(random);
        let whole = job.search(1, u32::MAX);
        for _ in 0..4 {
            let first = first(random, &whole);
            let budget = budget(random, first, &whole);
            let got = library::search(&job, random.word(), first, budget);
            assert_eq!(got, job.search(first, budget), "from {first}, budget {budget}: {job:?}");
            seen.count(&got);
        }
    });
    assert!(seen.found > 1_000 && seen.none > 500 && seen.spent > 500, "{seen:?}");
    for number in [1, 4, 12, 5, 15, 6, 16, 17, 13, 18] {
        assert!(seen.numbers[number] > 0, "{number}: {seen:?}");
    }
    for number in [3, 8, 9, 10] {
        assert_eq!(seen.numbers[number], 0, "{seen:?}");
    }
}

#[test]
fn random_searches_of_words_agree() {
    let seen = seen_in_rounds(72, 3_000, |random, seen: &mut Seen| {
        let reach = if random.once_in(4) { Reach::Quick } else { Reach::Near };
        let mut words = jobs::words(&jobs::job(random, reach));
        if random.once_in(3) {
            words = jobs::damaged_words(random, &words);
        }
        let whole = search_words(&words, 1, u32::MAX);
        let first = first(random, &whole);
        let budget = budget(random, first, &whole);
        let got = library::search_words(&words, first, budget);
        assert_eq!(got, search_words(&words, first, budget), "from {first}, budget {budget}: {words:08X?}");
        seen.count(&got);
    });
    assert!(seen.found > 500 && seen.none > 50 && seen.spent > 200, "{seen:?}");
    assert!(seen.numbers[2] > 50 && seen.numbers[14] > 0 && seen.numbers[18] > 100, "{seen:?}");
}

/// A search that is continued from spent by the library, with budgets that are drawn: its last
/// report, the sum of its tried candidates, and its calls.
fn continued(job: &Job, first: u32, mut budget: impl FnMut() -> u32) -> (Searched, usize) {
    let (mut from, mut tried) = (first, 0);
    for calls in 1.. {
        let turn = library::search(job, 0, from, budget()).expect("a search that begins is not refused later");
        tried += turn.tried;
        match turn.report {
            Report::Spent(next) => from = next,
            report => return (Searched { report, tried }, calls),
        }
    }
    unreachable!()
}

#[test]
fn continued_searches_end_as_undivided_ones() {
    let seen = seen_in_rounds(73, 400, |random, seen: &mut Seen| {
        let job = drawn(random);
        let Ok(whole) = library::search(&job, 0, 1, u32::MAX) else { return };
        let first = first(random, &Ok(whole)).clamp(1, BEYOND);
        let undivided = library::search(&job, 0, first, u32::MAX).unwrap();
        assert!(undivided.tried <= 4_096 && !matches!(undivided.report, Report::Spent(_)), "{undivided:?}");
        let most = random.pick(&[1, 7, 100, 5_000]);
        let long = undivided.tried > 300 && most == 1 && !random.once_in(10);
        let least = if long { 9 } else { 1 };
        let (last, calls) = continued(&job, first, || random.between(least, most.max(least)) as u32);
        assert_eq!(last, undivided, "from {first}: {job:?}");
        assert!(calls <= 4_096, "{calls} calls");
        seen.count(&Ok(last));
    });
    assert!(seen.found > 100 && seen.none > 30, "{seen:?}");
}

/// With a budget of 1 a search that finds nothing ends with call 4,096; turns
/// without a budget change nothing.
#[test]
fn one_candidate_a_turn() {
    let nowhere = one(Axis { speed_limit: 1, ..to(100_000_000) });
    let none = Searched { report: Report::None, tried: 4_096 };
    assert_eq!(continued(&nowhere, 1, || 1), (none, 4_096));
    let mut turn = 0;
    let every_other = || {
        turn += 1;
        turn % 2
    };
    assert_eq!(continued(&nowhere, 4_000, every_other).0, Searched { report: Report::None, tried: 97 });
}

/// The undivided search from tick 1 finds what planning finds.
#[test]
fn an_undivided_search_is_that_of_planning() {
    let mut random = Random::new(74);
    for _ in 0..1_000 {
        let job = Job { asked: 0, ..drawn(&mut random) };
        let planned = library::plan_typed(&job, &mut []);
        match (planned.number, library::search(&job, 0, 1, u32::MAX)) {
            (10, Ok(searched)) => assert_eq!(searched.report, Report::Found(planned.arrival), "{job:?}"),
            (9, Ok(searched)) => assert_eq!(searched.report, Report::None, "{job:?}"),
            (_, Err(refused)) => assert_eq!(refused, planned, "{job:?}"),
            other => panic!("{other:?}: {job:?}"),
        }
    }
}

#[test]
fn first_candidates_and_budgets_at_every_end() {
    let windows = Windows::new(1, &[(0, 3), (40, 43), (4_000, 4_097)]);
    let nowhere = Axis { speed_limit: 1, ..to(100_000_000) };
    for axis in [to(4), Axis { half_period: 30, second: Some(9), ..to(900) }, nowhere] {
        for job in [one(axis), Job { windows: Some(windows), ..asked(one(axis), u32::MAX) }] {
            for first in UNSIGNED_ENDS.into_iter().chain([3, 4, 5, 39, 40, 41, 42, 43, 4_094, 4_095, 4_098]) {
                for budget in UNSIGNED_ENDS.into_iter().chain([3, 4, 5, 4_094, 4_095]) {
                    let got = library::search(&job, 0, first, budget);
                    assert_eq!(got, job.search(first, budget), "from {first}, budget {budget}: {job:?}");
                }
            }
        }
    }
}

/// What the library says of words is what it says of their typed values.
#[test]
fn words_and_typed_values_agree() {
    let mut random = Random::new(75);
    for _ in 0..500 {
        let words = jobs::words(&jobs::job(&mut random, Reach::Near));
        let job = decode(&words).unwrap();
        let (first, budget) = (random.between(1, 30) as u32, random.between(0, 60) as u32);
        assert_eq!(library::search_words(&words, first, budget), library::search(&job, 0, first, budget), "{job:?}");
    }
}
