//! Request 2.10, the smallest change that makes an asked arrival: the library and the reference
//! agree on random jobs, valid and damaged, from words and from typed values; and planning by the
//! library bears a raise out: it is enough, and one less is not.

use outside::jobs::{self, Reach, SIGNED_ENDS, UNSIGNED_ENDS};
use outside::library;
use outside::plain::{asked, one, to};
use outside::random::{seen_in_rounds, Random};
use outside::reference::{raises_of_words, Answer, Axis, Job, Raise, Raised, Windows};

/// A search that ends later than this, or nowhere, is a long one, and is left out.
const LONG: i64 = 200;

/// How often an axis that was named had no raise, one of M, one of L, or both with the
/// one or the other first, or equal.
#[derive(Debug, Default)]
struct Seen {
    numbers: [usize; 19],
    none: usize,
    acceleration: usize,
    speed: usize,
    acceleration_first: usize,
    speed_first: usize,
    equal: usize,
}

impl Seen {
    fn axis(&mut self, raises: &[Raise]) {
        *match raises {
            [] => &mut self.none,
            [Raise::Acceleration(_)] => &mut self.acceleration,
            [Raise::Speed(_)] => &mut self.speed,
            [Raise::Acceleration(m), Raise::Speed(l)] if m < l => &mut self.acceleration_first,
            [Raise::Speed(l), Raise::Acceleration(m)] if l < m => &mut self.speed_first,
            [Raise::Acceleration(m), Raise::Speed(l)] if m == l => &mut self.equal,
            _ => panic!("{raises:?} are not in order"),
        } += 1;
    }

    fn raised(&mut self, (answer, axes): &Raised) {
        self.numbers[answer.number as usize] += 1;
        for (_, raises) in axes {
            self.axis(raises);
        }
    }
}

/// The answer of planning, without its refusal 10.
fn before_ten(planning: Answer, mask: u32) -> Answer {
    match planning.number {
        10 => Answer { number: 0, place: 0, mask, arrival: planning.arrival },
        _ => planning,
    }
}

/// Whether the library lets the axis arrive alone, at a tick that is asked for.
fn arrives(axis: Axis, tick: u32) -> bool {
    let answer = library::plan_typed(&asked(one(axis), tick), &mut []);
    assert!(matches!(answer.number, 8 | 10), "{axis:?} at {tick}: {answer:?}");
    answer.number == 10
}

/// Every raise is enough and one less is not; a limit without a raise is not
/// enough at the end of its range.
fn borne_out(job: &Job, (_, axes): &Raised) {
    for (i, raises) in axes {
        let axis = &job.axes[*i];
        for limit in [Raise::Acceleration(0), Raise::Speed(0)] {
            let found = raises.iter().find(|raise| raise.by(0) == limit);
            match found {
                Some(raise) => {
                    assert!(arrives(raise.of(axis), job.asked), "{raise:?} {axis:?}");
                    assert!(!arrives(raise.by(raise.amount() - 1).of(axis), job.asked), "{raise:?} {axis:?}");
                }
                None => assert!(!arrives(limit.by(limit.most(axis)).of(axis), job.asked), "{limit:?} {axis:?}"),
            }
        }
    }
}

/// The library and the reference agree on a typed job.
fn agrees(random: &mut Random, seen: &mut Seen, job: &Job) {
    let got = library::raises(job, random.word());
    assert_eq!(got, job.raises(), "{job:?}");
    assert_eq!(got.0, before_ten(library::plan_typed(job, &mut []), job.mask), "{job:?}");
    borne_out(job, &got);
    seen.raised(&got);
}

fn words_agree(seen: &mut Seen, words: &[u32]) {
    let got = library::raises_of_words(words);
    assert_eq!(got, raises_of_words(words), "{words:08X?}");
    let mask = words.first().map_or(0, |word| word & 63);
    assert_eq!(got.0, before_ten(library::plan_words(words, &mut []), mask), "{words:08X?}");
    seen.raised(&got);
}

/// A job with an asked arrival: at the edge of its reach or a tick early, near or
/// quick, or after accelerating targets.
fn drawn(random: &mut Random) -> Job {
    match random.below(6) {
        0 | 1 => {
            let job = jobs::edge_job(random);
            Job { asked: (job.asked - 1).max(1), ..job }
        }
        2 => jobs::edge_job(random),
        3 => jobs::chasing_job(random),
        n => {
            let job = jobs::job(random, if n == 4 { Reach::Near } else { Reach::Quick });
            if job.asked > 1 && random.once_in(2) {
                Job { asked: random.between(1, i64::from(job.asked)) as u32, ..job }
            } else {
                job
            }
        }
    }
}

#[test]
fn random_raises_agree() {
    let seen = seen_in_rounds(51, 4_000, |random, seen: &mut Seen| {
        let job = drawn(random);
        let damaged = jobs::damaged_job(random, &job);
        let windowed = jobs::windowed(random, &job);
        let badly_windowed = jobs::badly_windowed(random, &job);
        for job in [job, damaged, windowed, badly_windowed] {
            if !job.searches_past(LONG) {
                agrees(random, seen, &job);
            }
        }
        let words = jobs::words(&job);
        for words in [jobs::damaged_words(random, &words), words] {
            if !outside::reference::decode(&words).is_ok_and(|job| job.searches_past(LONG)) {
                words_agree(seen, &words);
            }
        }
    });
    for number in [0, 1, 2, 14, 3, 4, 12, 5, 15, 6, 16, 17, 13, 8] {
        assert!(seen.numbers[number] > 0, "{number}: {seen:?}");
    }
    assert_eq!(seen.numbers[10], 0);
    let kinds = [seen.none, seen.acceleration, seen.speed, seen.acceleration_first, seen.speed_first, seen.equal];
    assert!(kinds.iter().all(|&n| n > 20), "{seen:?}");
}

/// Limits, distances and arrivals at their ends, on every axis.
#[test]
fn raises_at_every_end() {
    let mut random = Random::new(52);
    let mut seen = Seen::default();
    for i in 0..6 {
        let mut job = Job { mask: 1 << i, asked: 40, ..one(to(0)) };
        job.axes[i] = Axis { speed_limit: 20, half_period: 2, ..to(900) };
        for asked in UNSIGNED_ENDS.into_iter().filter(|&asked| asked != 0) {
            agrees(&mut random, &mut seen, &Job { asked, ..job });
            for j in 0..5 {
                let mut changed = job;
                changed.axes[i] = jobs::with_unsigned(job.axes[i], j, asked);
                agrees(&mut random, &mut seen, &changed);
            }
        }
        for value in SIGNED_ENDS {
            for j in 0..4 {
                let mut changed = job;
                changed.axes[i] = jobs::with_signed(job.axes[i], j, value);
                agrees(&mut random, &mut seen, &changed);
            }
        }
    }
    assert!(seen.none > 50 && seen.acceleration > 50 && seen.speed > 50, "{seen:?}");
}

#[test]
fn settled_raises() {
    let (m, l) = (Raise::Acceleration, Raise::Speed);
    let raises = |axis: Axis, tick: u32, windows: Option<Windows>| {
        let job = Job { windows, ..asked(one(axis), tick) };
        let (answer, raises) = library::raises(&job, 0);
        assert_eq!((answer.number, answer.place, answer.arrival), (8, 0, 0));
        assert_eq!(answer.mask, u32::from(!raises.is_empty()));
        raises.into_iter().flat_map(|(_, raises)| raises).collect::<Vec<_>>()
    };
    assert_eq!(raises(to(4), 3, None), [m(1)]);
    assert_eq!(raises(Axis { speed_limit: 2, ..to(9) }, 6, None), [m(1), l(1)]);
    assert_eq!(raises(Axis { speed_limit: 3, start_velocity: 2, ..to(22) }, 8, None), [l(1), m(2)]);
    assert_eq!(raises(Axis { half_period: 3, ..to(4) }, 3, None), []);
    // No window is heeded, and an arrival that fits none has no raise.
    let late = Some(Windows::new(0, &[(6, 7)]));
    assert_eq!(raises(to(4), 3, late), [m(1)]);
    assert_eq!(raises(to(4), 4, late), []);
    // Case E in words.
    let (answer, raised) = library::raises_of_words(&jobs::words(&asked(one(to(4)), 3)));
    assert_eq!((answer.number, answer.mask, raised), (8, 1, vec![(0, vec![m(1)])]));
}
