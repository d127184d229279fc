//! The library and the reference agree on random jobs, valid and damaged, from words and from typed
//! values, with rows in either order: on the answer and on every lent cell, those past the table
//! and those of a refused call among them. More than 200,000 calls are compared.

use outside::jobs::{self, Reach};
use outside::library;
use outside::random::Random;
use outside::reference::{self, Answer, Job, Order};

/// What is compared for a job, and the memory that is lent.
struct Comparison {
    random: Random,
    got: Vec<i64>,
    want: Vec<i64>,
    /// How many calls gave each number.
    seen: [usize; 19],
    /// How many jobs that search past tick `LONG` are still tried; the others are left out, since
    /// such a search takes milliseconds.
    long_searches: usize,
}

/// The numbers that planning can give.
const NUMBERS: [usize; 16] = [0, 1, 2, 14, 3, 4, 12, 5, 15, 6, 16, 17, 13, 8, 9, 10];

/// A search that ends later than this, or nowhere, is a long one.
const LONG: i64 = 200;

impl Comparison {
    fn new(seed: u64, long_searches: usize) -> Comparison {
        Comparison { random: Random::new(seed), got: Vec::new(), want: Vec::new(), seen: [0; 19], long_searches }
    }

    /// Lends both sides the same cells.
    fn lend(&mut self, cells: usize) {
        let fill = self.random.word() as i64;
        self.got.clear();
        self.got.extend((0..cells as i64).map(|i| fill ^ (i << 32)));
        self.want.clone_from(&self.got);
    }

    /// A number of cells about what `job` may need: too few, just enough, or more.
    fn some_cells(&mut self, job: &Job, most_rows: usize) -> usize {
        let row = 3 * job.mask.count_ones().max(1) as usize;
        match self.random.below(8) {
            0 => self.random.below(row * 4),
            1 if 0 < job.asked && job.asked <= 4096 => row * (job.asked as usize + 1),
            2 if 0 < job.asked && job.asked <= 4096 => row * (job.asked as usize + 1) - 1,
            _ => row * most_rows + self.random.below(7),
        }
    }

    /// Whether the job is tried.
    fn tries(&mut self, job: &Job) -> bool {
        let long = job.searches_past(LONG);
        if long && self.long_searches == 0 {
            return false;
        }
        self.long_searches -= usize::from(long);
        true
    }

    /// The order of the rows: forwards twice as often.
    fn order(&mut self) -> Order {
        self.random.pick(&[Order::Forwards, Order::Forwards, Order::Backwards])
    }

    fn compare(&mut self, got: Answer, want: Answer, job: &dyn std::fmt::Debug) {
        assert_eq!(got, want, "{job:?}");
        if let Some(at) = (0..self.got.len()).find(|&i| self.got[i] != self.want[i]) {
            panic!("cell {at} is {} for {}: {job:?}", self.got[at], self.want[at]);
        }
        self.seen[want.number as usize] += 1;
    }

    fn typed(&mut self, job: &Job, cells: usize) {
        if !self.tries(job) {
            return;
        }
        self.lend(cells);
        let (fill, order) = (self.random.word(), self.order());
        let got = library::plan_filled_in(order, job, fill, &mut self.got);
        let want = job.plan_in(order, &mut self.want);
        self.compare(got, want, &(order, job));
    }

    fn words(&mut self, words: &[u32], cells: usize) {
        if reference::decode(words).is_ok_and(|job| !self.tries(&job)) {
            return;
        }
        self.lend(cells);
        let order = self.order();
        let got = library::plan_words_in(order, words, &mut self.got);
        let want = reference::plan_words_in(order, words, &mut self.want);
        self.compare(got, want, &(order, words));
    }

    /// A job from typed values or from words.
    fn either(&mut self, typed: bool, job: &Job, cells: usize) {
        if typed {
            self.typed(job, cells);
        } else {
            self.words(&jobs::words(job), cells);
        }
    }

    /// How many calls gave each number, printed; asks that there were enough of them.
    fn report(&self, name: &str, least: usize) -> [usize; 19] {
        eprintln!("{name}: calls by number {:?}", self.seen);
        assert!(self.seen.iter().sum::<usize>() >= least, "{name}: {:?}", self.seen);
        self.seen
    }

    /// Tries something `count` times.
    fn rounds(&mut self, count: usize, mut round: impl FnMut(&mut Comparison, usize)) -> &mut Comparison {
        for n in 0..count {
            round(self, n);
        }
        self
    }

    /// `count` jobs of a reach, each from typed values and from words, whole and damaged.
    fn run(&mut self, reach: Reach, count: usize, most_rows: usize) -> &mut Comparison {
        self.rounds(count, |all, _| {
            let job = jobs::job(&mut all.random, reach);
            let cells = all.some_cells(&job, most_rows);
            all.typed(&job, cells);
            let damaged = jobs::damaged_job(&mut all.random, &job);
            all.typed(&damaged, cells);
            let windowed = jobs::windowed(&mut all.random, &job);
            all.typed(&windowed, cells);
            let badly_windowed = jobs::badly_windowed(&mut all.random, &job);
            all.typed(&badly_windowed, cells);
            let words = jobs::words(&job);
            all.words(&words, cells);
            let damaged = jobs::damaged_words(&mut all.random, &words);
            all.words(&damaged, cells);
        })
    }
}

#[test]
fn near_jobs_agree() {
    let seen = Comparison::new(1, 20).run(Reach::Near, 30_000, 60).report("near", 145_000);
    assert!(NUMBERS.iter().all(|&n| seen[n] > 0), "{seen:?}");
}

#[test]
fn quick_jobs_agree() {
    let seen = Comparison::new(2, 20).run(Reach::Quick, 8_000, 100).report("quick", 33_000);
    assert!(seen[0] > 1_000);
}

#[test]
fn asked_jobs_agree() {
    let seen = Comparison::new(3, 5).run(Reach::Asked, 1_000, 4_097).report("asked", 3_500);
    assert!(seen[0] > 100);
}

#[test]
fn far_jobs_agree() {
    let seen =
        Comparison::new(4, usize::MAX).run(Reach::Far, 40, 4_097).run(Reach::Anywhere, 10, 4_097).report("far", 200);
    assert!(seen[0] > 20 && seen[9] > 20, "{seen:?}");
}

/// Large accelerations of targets and long blends, where no part of the planned target rounds away.
#[test]
fn chasing_jobs_agree() {
    let round = |all: &mut Comparison, n: usize| {
        let job = jobs::chasing_job(&mut all.random);
        let cells = 3 * job.count() * 901;
        all.either(n % 2 == 0, &job, cells);
    };
    let seen = Comparison::new(8, 0).rounds(1_500, round).report("chasing", 1_500);
    assert!(seen[0] > 500 && seen[8] > 100, "{seen:?}");
}

/// Axes that just make their arrival or just miss it, in every case of ramps and flat parts.
#[test]
fn edge_jobs_agree() {
    let round = |all: &mut Comparison, n: usize| {
        let asked = jobs::edge_job(&mut all.random);
        // The arrival before is mostly out of reach, and the least one may be as well.
        let job = match n % 4 {
            0 => Job { asked: (asked.asked - 1).max(1), ..asked },
            1 => Job { asked: 0, ..asked },
            _ => asked,
        };
        let cells = 3 * job.count() * 601;
        all.either(n % 8 < 4, &job, cells);
    };
    let seen = Comparison::new(9, 100).rounds(8_000, round).report("edge", 6_500);
    assert!(seen[0] > 2_500 && seen[8] > 2_000, "{seen:?}");
}

/// Searches that end late, or nowhere, for all axes and for each of them.
#[test]
fn late_jobs_agree() {
    let round = |all: &mut Comparison, n: usize| {
        let job = jobs::late_job(&mut all.random);
        let cells = 3 * job.count() * 4_097;
        match n % 3 {
            0 => all.typed(&job, cells),
            1 => all.words(&jobs::words(&job), cells),
            _ => {
                let windowed = jobs::late_windowed(&mut all.random, &job);
                all.typed(&windowed, cells);
            }
        }
    };
    let seen = Comparison::new(7, usize::MAX).rounds(200, round).report("late", 200);
    assert!(seen[0] > 80 && seen[9] > 30, "{seen:?}");
}

#[test]
fn stray_words_agree() {
    let round = |all: &mut Comparison, _: usize| {
        let words = jobs::stray_words(&mut all.random);
        all.words(&words, 2_000);
    };
    let seen = Comparison::new(5, 5).rounds(20_000, round).report("stray", 19_900);
    assert!(seen[2] > 1_000 && seen[14] > 1_000, "{seen:?}");
}

#[test]
fn random_words_agree() {
    let round = |all: &mut Comparison, _: usize| {
        let count = all.random.below(14);
        let words: Vec<u32> = (0..count).map(|_| all.random.word() as u32).collect();
        all.words(&words, 40);
    };
    Comparison::new(6, 0).rounds(1_000, round);
}
