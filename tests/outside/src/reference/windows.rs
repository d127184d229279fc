//! Request 2.5: laser windows.

use super::job::refusal;
use super::{Answer, LATEST};

/// An opening tick and a closing tick.
#[derive(Clone, Copy, Debug, PartialEq, Eq)]
pub struct Window {
    pub opening: u32,
    pub closing: u32,
}

pub const MOST_WINDOWS: usize = 32;

/// The windows of a job: the first `count` of the list, where that is not above 32.
#[derive(Clone, Copy, PartialEq, Eq)]
pub struct Windows {
    pub dwell: u32,
    pub count: u32,
    pub list: [Window; MOST_WINDOWS],
}

impl std::fmt::Debug for Windows {
    fn fmt(&self, f: &mut std::fmt::Formatter) -> std::fmt::Result {
        let count = self.count as usize;
        write!(f, "{count} windows, dwell {}: {:?}", self.dwell, &self.list[..count.min(MOST_WINDOWS)])
    }
}

impl Windows {
    /// Some windows, 32 at most.
    pub fn new(dwell: u32, some: &[(u32, u32)]) -> Windows {
        let mut list = [Window { opening: 0, closing: 0 }; MOST_WINDOWS];
        for (window, &(opening, closing)) in list.iter_mut().zip(some) {
            *window = Window { opening, closing };
        }
        Windows { dwell, count: some.len() as u32, list }
    }

    fn given(&self) -> &[Window] {
        &self.list[..self.count as usize]
    }

    /// Refusal 13.
    pub fn refused(&self) -> Option<Answer> {
        let at = |place: usize| Some(refusal(13, place as u64, 0, 0));
        if self.count == 0 {
            return at(0);
        }
        if self.count as usize > MOST_WINDOWS || i64::from(self.dwell) > LATEST {
            return at(MOST_WINDOWS);
        }
        let mut closed = 0;
        for (place, window) in self.given().iter().enumerate() {
            if window.closing <= window.opening || window.opening < closed {
                return at(place);
            }
            closed = window.closing;
        }
        None
    }

    /// Whether an arrival fits a window.
    pub fn fit(&self, arrival: i64) -> bool {
        self.given().iter().any(|window| {
            let (opening, closing) = (i64::from(window.opening), i64::from(window.closing));
            opening <= arrival && arrival < closing && arrival + i64::from(self.dwell) <= closing
        })
    }
}

#[cfg(test)]
mod tests {
    use super::*;
    use crate::plain::{asked, job, one, to};
    use crate::reference::{Axis, Job};

    fn outcome(job: Job, dwell: u32, some: &[(u32, u32)]) -> (u32, u64, u32, u32) {
        let answer = Job { windows: Some(Windows::new(dwell, some)), ..job }.plan(&mut [0; 300]);
        (answer.number, answer.place, answer.mask, answer.arrival)
    }

    const ONE_AT_4: (u32, u64, u32, u32) = (0, 0, 1, 4);

    #[test]
    fn an_arrival_fits_one_window_with_its_dwell() {
        let b = one(to(4));
        // Windows that touch do not join.
        assert_eq!(outcome(b, 2, &[(0, 5), (5, 9)]), (0, 0, 1, 5));
        // The closing tick is no arrival, also with dwell 0.
        assert_eq!(outcome(b, 0, &[(0, 4)]), (9, 0, 0, 0));
        assert_eq!(outcome(b, 0, &[(0, 5)]), ONE_AT_4);
        assert_eq!(outcome(b, 2, &[(0, 6)]), ONE_AT_4);
        assert_eq!(outcome(b, 3, &[(0, 6)]), (9, 0, 0, 0));
        assert_eq!(outcome(b, 4_096, &[(4, 4_100)]), ONE_AT_4);
        assert_eq!(outcome(b, 4_096, &[(7, u32::MAX)]), (0, 0, 1, 7));
    }

    #[test]
    fn eight_and_nine() {
        let b = one(to(4));
        assert_eq!(outcome(asked(b, 3), 0, &[(7, 9)]), (8, 0, 1, 0));
        assert_eq!(outcome(asked(b, 4), 0, &[(7, 9)]), (8, 0, 0, 0));
        assert_eq!(outcome(asked(b, 7), 0, &[(7, 9)]), (0, 0, 1, 7));
        assert_eq!(outcome(b, 0, &[(1, 2)]), (9, 0, 0, 0));
        let far = Axis { speed_limit: 1, ..to(100_000_000) };
        assert_eq!(outcome(job(&[to(4), far]), 0, &[(1, 2)]), (9, 0, 2, 0));
    }

    #[test]
    fn thirteen() {
        let b = one(to(4));
        let refused = |place: u64| (13, place, 0, 0);
        assert_eq!(outcome(b, 0, &[]), refused(0));
        assert_eq!(outcome(b, u32::MAX, &[]), refused(0));
        assert_eq!(outcome(b, 0, &[(1, 2); 33]), refused(32));
        assert_eq!(outcome(b, 4_097, &[(5, 2)]), refused(32));
        assert_eq!(outcome(b, 4_096, &[(5, 2)]), refused(0));
        assert_eq!(outcome(b, 0, &[(5, 5)]), refused(0));
        assert_eq!(outcome(b, 0, &[(0, 5), (4, 9)]), refused(1));
        assert_eq!(outcome(b, 0, &[(0, 5), (5, 9), (8, 7)]), refused(2));
        assert_eq!(outcome(b, 0, &[(0, 5), (2, 1), (9, 9)]), refused(1));
        let touching: Vec<(u32, u32)> = (0..32).map(|i| (i, i + 1)).collect();
        assert_eq!(outcome(b, 0, &touching), ONE_AT_4);
    }

    #[test]
    fn where_thirteen_stands() {
        // Before 8 also for an asked arrival, after 3 and after the numbers of an axis.
        assert_eq!(outcome(asked(one(to(4)), 3), 0, &[]), (13, 0, 0, 0));
        assert_eq!(outcome(asked(one(to(4)), 4_097), 0, &[]), (3, 1, 0, 0));
        assert_eq!(outcome(one(Axis { start_velocity: 11, ..to(4) }), 0, &[]), (6, 0, 0, 0));
        assert_eq!(outcome(Job { mask: 64, ..one(to(4)) }, 0, &[]), (1, 0, 0, 0));
    }

    #[test]
    fn no_windows_is_no_empty_list() {
        let answer = one(to(4)).plan(&mut [0; 300]);
        assert_eq!((answer.number, answer.arrival), (0, 4));
    }
}
