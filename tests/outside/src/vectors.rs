//! Reads the case files of tests/reference/vectors: a line is a name, a call and what is expected
//! of it.

use std::str::{FromStr, SplitAsciiWhitespace};

use crate::library;
use crate::reference::{
    self, Answer, Axis, Damping, Job, Order, Raise, Raised, Report, Search, Searched, Single, Stop, Target, Tour,
    Toured, Windows, UNSET,
};

/// The tokens of a part of a line, one after the other.
pub struct Tokens<'a>(SplitAsciiWhitespace<'a>);

impl<'a> Tokens<'a> {
    pub fn of(part: &'a str) -> Tokens<'a> {
        Tokens(part.split_ascii_whitespace())
    }

    pub fn word(&mut self) -> &'a str {
        self.0.next().expect("a token is lacking")
    }

    /// The next token is this one.
    pub fn is(&mut self, want: &str) {
        assert_eq!(self.word(), want);
    }

    pub fn end(mut self) {
        assert_eq!(self.0.next(), None, "a token is left over");
    }

    pub fn number<T: FromStr>(&mut self) -> T {
        let token = self.word();
        token.parse().unwrap_or_else(|_| panic!("{token} is no number here"))
    }

    /// A number, or none where the method leaves the field free.
    pub fn free<T: FromStr>(&mut self) -> Option<T> {
        let token = self.word();
        (token != "-").then(|| token.parse().unwrap_or_else(|_| panic!("{token} is no number here")))
    }

    fn hex(&mut self) -> u32 {
        let token = self.word();
        u32::from_str_radix(token, 16).unwrap_or_else(|_| panic!("{token} is no hexadecimal number"))
    }

    /// As many of something as a number before them says.
    pub fn counted<T>(&mut self, mut read: impl FnMut(&mut Tokens<'a>) -> T) -> Vec<T> {
        let count: usize = self.number();
        (0..count).map(|_| read(self)).collect()
    }

    pub fn hexes(&mut self) -> Vec<u32> {
        self.counted(Tokens::hex)
    }

    fn windows(&mut self) -> Option<Windows> {
        match self.word() {
            "none" => None,
            "windows" => {
                let dwell = self.number();
                let pairs = self.counted(|tokens| (tokens.number(), tokens.number()));
                Some(Windows::new(dwell, &pairs))
            }
            other => panic!("{other} says nothing of windows"),
        }
    }

    fn damping(&mut self) -> Damping {
        match self.word() {
            "weight" => Damping::Weight(self.number()),
            "ratio" => Damping::Ratio(Single(self.hex())),
            "peaks" => Damping::Peaks(Single(self.hex()), Single(self.hex())),
            other => panic!("{other} is no damping"),
        }
    }

    fn second(&mut self) -> Option<u32> {
        match self.word() {
            "single" => None,
            "second" => Some(self.number()),
            other => panic!("{other} says nothing of a second half period"),
        }
    }

    fn target(&mut self) -> Target {
        match self.word() {
            "fixed" => Target::Fixed { position: self.number(), velocity: self.number() },
            "moving" => Target::Moving {
                position: self.number(),
                velocity: self.number(),
                acceleration: self.number(),
                tick: self.number(),
            },
            other => panic!("{other} is no target"),
        }
    }

    /// An axis and its bit; one of a tour has neither start velocity nor target.
    fn axis(&mut self, of_tour: bool) -> (usize, Axis) {
        self.is("axis");
        let bit = self.number();
        let axis = Axis {
            start_position: self.number(),
            start_velocity: if of_tour { 0 } else { self.number() },
            speed_limit: self.number(),
            acceleration_limit: self.number(),
            half_period: self.number(),
            damping: self.damping(),
            second: self.second(),
            target: if of_tour { UNSET.target } else { self.target() },
        };
        (bit, axis)
    }

    fn axes(&mut self, of_tour: bool) -> [Axis; 6] {
        let mut axes = [UNSET; 6];
        for (bit, axis) in self.counted(|tokens| tokens.axis(of_tour)) {
            axes[bit] = axis;
        }
        axes
    }

    pub fn tour(&mut self) -> (Tour, Vec<Stop>) {
        let tour = Tour { mask: self.number(), axes: self.axes(true) };
        let stops = self.counted(|tokens| {
            tokens.is("stop");
            Stop { positions: [(); 6].map(|()| tokens.number()), dwell: tokens.number() }
        });
        (tour, stops)
    }

    pub fn given(&mut self) -> Given {
        match self.word() {
            "words" => Given::Words(self.hexes()),
            "typed" => {
                let (mask, asked) = (self.number(), self.number());
                let windows = self.windows();
                Given::Typed(Box::new(Job { mask, asked, axes: self.axes(false), windows }))
            }
            other => panic!("{other} is no job"),
        }
    }

    /// The answer that is expected, but for what the method leaves free.
    pub fn answer(&mut self, got: Answer) {
        self.is("answer");
        let (number, place): (_, Option<u64>) = (self.number(), self.free());
        let (mask, arrival): (Option<u32>, Option<u32>) = (self.free(), self.free());
        let want = Answer {
            number,
            place: place.unwrap_or(got.place),
            mask: mask.unwrap_or(got.mask),
            arrival: arrival.unwrap_or(got.arrival),
        };
        assert_eq!(got, want);
    }

    /// What is expected of a tour: an answer whose fields the method leaves free where it
    /// is not refused, and the total.
    pub fn toured(&mut self, got: Toured) {
        let free = Answer { number: 0, place: 0, mask: 0, arrival: 0 };
        self.answer(got.err().unwrap_or(free));
        self.is("total");
        let total = self.free();
        assert!(got.is_err() || got.ok() == total, "{got:?} {total:?}");
    }
}

impl Tokens<'_> {
    /// The raises that are expected.
    pub fn raises(&mut self) -> Vec<(usize, Vec<Raise>)> {
        self.is("raises");
        self.counted(|tokens| {
            tokens.is("axis");
            let bit = tokens.number();
            let raises = tokens.counted(|tokens| match tokens.word() {
                "M" => Raise::Acceleration(tokens.number()),
                "L" => Raise::Speed(tokens.number()),
                other => panic!("{other} is no limit"),
            });
            (bit, raises)
        })
    }
}

impl Tokens<'_> {
    /// What is expected of a search: a report, or a refusal.
    pub fn searched(&mut self, got: Search) {
        let report = match got {
            Err(refused) => return self.answer(refused),
            Ok(_) => self.word(),
        };
        let report = match report {
            "found" => Report::Found(self.number()),
            "none" => Report::None,
            "spent" => Report::Spent(self.number()),
            other => panic!("{other} is no report: {got:?}"),
        };
        assert_eq!(got, Ok(Searched { report, tried: self.number() }));
    }
}

/// A job as it is given to a call.
pub enum Given {
    Words(Vec<u32>),
    Typed(Box<Job>),
}

/// Who is asked.
#[derive(Clone, Copy, Debug)]
pub enum Side {
    Library,
    Reference,
}

impl Given {
    /// The call for a table, with its rows in either order.
    pub fn plan(&self, side: Side, order: Order, table: &mut [i64]) -> Answer {
        match (self, side) {
            (Given::Words(words), Side::Library) => library::plan_words_in(order, words, table),
            (Given::Words(words), Side::Reference) => reference::plan_words_in(order, words, table),
            (Given::Typed(job), Side::Library) => library::plan_filled_in(order, job, 0, table),
            (Given::Typed(job), Side::Reference) => job.plan_in(order, table),
        }
    }

    /// The call for rows from a first one on; also how many were written.
    pub fn part(&self, side: Side, first: u32, table: &mut [i64]) -> (Answer, u32) {
        match (self, side) {
            (Given::Words(words), Side::Library) => library::part_of_words(words, first, table),
            (Given::Words(words), Side::Reference) => reference::part_of_words(words, first, table),
            (Given::Typed(job), Side::Library) => library::part(job, 0, first, table),
            (Given::Typed(job), Side::Reference) => job.part(first, table),
        }
    }

    /// The call for raises.
    pub fn raises(&self, side: Side) -> Raised {
        match (self, side) {
            (Given::Words(words), Side::Library) => library::raises_of_words(words),
            (Given::Words(words), Side::Reference) => reference::raises_of_words(words),
            (Given::Typed(job), Side::Library) => library::raises(job, 0),
            (Given::Typed(job), Side::Reference) => job.raises(),
        }
    }

    /// The search from a first candidate within a budget.
    pub fn search(&self, side: Side, first: u32, budget: u32) -> Search {
        match (self, side) {
            (Given::Words(words), Side::Library) => library::search_words(words, first, budget),
            (Given::Words(words), Side::Reference) => reference::search_words(words, first, budget),
            (Given::Typed(job), Side::Library) => library::search(job, 0, first, budget),
            (Given::Typed(job), Side::Reference) => job.search(first, budget),
        }
    }
}

/// The sum that stands for the cells of a table.
pub fn sum(cells: &[i64]) -> u64 {
    const P: u64 = 2_147_483_647;
    cells.iter().fold(0, |sum, &x| (31 * sum + 2 * (x.unsigned_abs() % P) + u64::from(x < 0)) % P)
}
