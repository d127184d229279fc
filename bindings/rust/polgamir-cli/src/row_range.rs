//! Some rows of a table, as `--rows` names them.

use std::fmt;

use polgamir::LATEST_ARRIVAL;

/// Some rows of a table: those of ticks `first` to `last`.
#[derive(Debug, Clone, Copy, PartialEq, Eq)]
pub struct RowRange {
    /// The first tick.
    pub first: u32,
    /// The last tick.
    pub last: u32,
}

impl RowRange {
    /// The rows of `A..B`, or `None` where that is not what is written.
    pub fn of(text: &str) -> Option<RowRange> {
        let (first, last) = text.split_once("..")?;
        let digits = |number: &str| number.bytes().all(|byte| byte.is_ascii_digit()).then(|| number.parse().ok())?;
        let (first, last) = (digits(first)?, digits(last)?);
        (first <= last && last <= LATEST_ARRIVAL).then_some(RowRange { first, last })
    }

    /// How many rows these are.
    pub fn count(self) -> usize {
        (self.last - self.first + 1) as usize
    }
}

impl fmt::Display for RowRange {
    fn fmt(&self, f: &mut fmt::Formatter<'_>) -> fmt::Result {
        write!(f, "{}..{}", self.first, self.last)
    }
}
