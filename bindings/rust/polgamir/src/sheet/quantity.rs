//! What the numbers of a sheet measure, and how each is rounded.

use super::fraction::{Fraction, Rounding};
use crate::words::WordKind;

/// What a number measures.
#[derive(Debug, Clone, Copy, PartialEq, Eq)]
pub enum Quantity {
    /// Ticks.
    Time,
    /// Units.
    Position,
    /// Units per tick.
    Velocity,
    /// Units per tick².
    Acceleration,
}

impl Quantity {
    /// What it is counted in.
    pub fn steps(self, one: bool) -> &'static str {
        match (self, one) {
            (Quantity::Time, true) => "tick",
            (Quantity::Time, false) => "ticks",
            (Quantity::Position, true) => "unit",
            (Quantity::Position, false) => "units",
            (Quantity::Velocity, true) => "unit per tick",
            (Quantity::Velocity, false) => "units per tick",
            (Quantity::Acceleration, true) => "unit per tick²",
            (Quantity::Acceleration, false) => "units per tick²",
        }
    }

    /// What may stand after a unit's name; the first is the one that is shown.
    pub fn endings(self) -> &'static [&'static str] {
        match self {
            Quantity::Velocity => &["/s"],
            Quantity::Acceleration => &["/s²", "/s2", "/s^2"],
            _ => &[""],
        }
    }

    /// The measure of a crew that names its unit.
    pub fn measure(self, unit: &str) -> String {
        match self {
            Quantity::Time => "s".into(),
            _ => format!("{unit}{}", self.endings()[0]),
        }
    }
}

/// How an entry is rounded, and which numbers it may be.
#[derive(Debug, Clone, Copy)]
pub struct Rule {
    /// What it measures.
    pub quantity: Quantity,
    /// Which whole number stands for it.
    pub rounding: Rounding,
    /// Whether it may be below 0.
    pub is_signed: bool,
    /// Whether one that is not 0 may not come to 0.
    pub is_kept_from_zero: bool,
}

impl Rule {
    /// An entry from 0 up.
    pub const fn unsigned(quantity: Quantity, rounding: Rounding) -> Rule {
        Rule { quantity, rounding, is_signed: false, is_kept_from_zero: false }
    }

    /// An entry from 0 up that does not come to 0 by rounding.
    pub const fn kept(quantity: Quantity, rounding: Rounding) -> Rule {
        Rule { is_kept_from_zero: true, ..Rule::unsigned(quantity, rounding) }
    }

    /// An entry of either sign, to the nearest.
    pub const fn signed(quantity: Quantity) -> Rule {
        Rule { is_signed: true, ..Rule::unsigned(quantity, Rounding::Nearest) }
    }

    /// The rule of a number of an axis.
    pub const fn of(entry: WordKind) -> Rule {
        match entry {
            WordKind::SpeedLimit => Rule::kept(Quantity::Velocity, Rounding::Down),
            WordKind::AccelerationLimit => Rule::kept(Quantity::Acceleration, Rounding::Down),
            WordKind::StartPosition | WordKind::TargetPosition => Rule::signed(Quantity::Position),
            WordKind::StartVelocity | WordKind::TargetVelocity => Rule::signed(Quantity::Velocity),
            WordKind::TargetAcceleration => Rule::signed(Quantity::Acceleration),
            WordKind::TargetTick => Rule::signed(Quantity::Time),
            _ => Rule::kept(Quantity::Time, Rounding::Nearest),
        }
    }
}

/// How a half period is said.
#[derive(Debug, Clone, PartialEq)]
pub enum Share {
    /// By itself.
    Whole,
    /// As a time of which it is a part.
    Part(Fraction),
    /// As swings there and back in a second.
    Frequency,
}

/// Where an entry stands, and what is said of it.
#[derive(Debug)]
pub struct Place<'n> {
    /// The line, from 1.
    pub line: usize,
    /// The axis whose unit holds.
    pub axis: Option<usize>,
    /// Which number of an axis, or of the whole job, it is.
    pub entry: Option<WordKind>,
    /// Whose it is, in words.
    pub whose: String,
    /// The name of the entry.
    pub name: &'n str,
    /// What stands after the name.
    pub entered: String,
    /// What is expected there.
    pub expected: String,
}

impl<'n> Place<'n> {
    /// The place of an entry of the whole sheet.
    pub fn whole_sheet(line: usize, name: &'n str, value: &[&str], expected: &str) -> Place<'n> {
        let (whose, entered) = (String::new(), value.join(" "));
        Place { line, axis: None, entry: None, whose, name, entered, expected: expected.into() }
    }
}
