//! The lines of an axis: their names, and what is expected after each.

use super::amount::Amount;
use super::fraction::Fraction;
use super::quantity::Share;
use super::text::{after, decimal};
use crate::damping::Damping;
use crate::words::WordKind;

/// The lines that say the damping.
pub const DAMPING: &str = "`weight`, `shrinks` or `peaks`";

/// A line that says the damping: its name, what is expected after it, and the damping of a value.
type DampingLine = (&'static str, &'static str, fn(&[&str]) -> Option<Damping>);

/// Each line that says the damping.
pub const DAMPINGS: [DampingLine; 3] = [
    ("weight", "a whole number from 1 to 128", |value| match value {
        [weight] => weight.parse().ok().map(Damping::Weight),
        _ => None,
    }),
    ("shrinks", "a number above 0 and at most 1", |value| match value {
        [ratio] => decimal(ratio).map(Damping::Ratio),
        _ => None,
    }),
    ("peaks", "two numbers above 0, the second not above the first,", |value| {
        let [first, second] = peaks(value)?;
        Some(Damping::Peaks { first: decimal(&first)?, second: decimal(&second)? })
    }),
];

/// Two peaks, as they are written without their measure, which is the same for both.
fn peaks(value: &[&str]) -> Option<[String; 2]> {
    if let [first, second] = value {
        if let (Some(_), Some(_)) = (decimal(first), decimal(second)) {
            return Some([first.to_string(), second.to_string()]);
        }
    }
    let [first, second] = <[Amount; 2]>::try_from(Amount::all(value)?).ok()?;
    let is_same = !first.is_measured() || first.measure == second.measure;
    is_same.then_some([first.digits, second.digits])
}

/// A line of an axis that is a number.
#[derive(Debug, Clone, Copy)]
pub struct NumberLine {
    /// The name.
    pub name: &'static str,
    /// Which number of the axis it is.
    pub entry: WordKind,
}

/// The lines of an axis that are numbers, in the order in which they are tried.
pub const NUMBERS: [NumberLine; 16] = {
    const fn line(name: &'static str, entry: WordKind) -> NumberLine {
        NumberLine { name, entry }
    }
    [
        line("half period", WordKind::HalfPeriod),
        line("period", WordKind::HalfPeriod),
        line("frequency", WordKind::HalfPeriod),
        line("swings", WordKind::HalfPeriod),
        line("second half period", WordKind::SecondHalfPeriod),
        line("second period", WordKind::SecondHalfPeriod),
        line("second frequency", WordKind::SecondHalfPeriod),
        line("second swings", WordKind::SecondHalfPeriod),
        line("speed limit", WordKind::SpeedLimit),
        line("acceleration limit", WordKind::AccelerationLimit),
        line("start position", WordKind::StartPosition),
        line("start velocity", WordKind::StartVelocity),
        line("target position", WordKind::TargetPosition),
        line("target velocity", WordKind::TargetVelocity),
        line("target acceleration", WordKind::TargetAcceleration),
        line("target tick", WordKind::TargetTick),
    ]
};

impl NumberLine {
    /// The number that a value says, and how the entry follows from it.
    pub fn read(&self, value: &[&str]) -> Option<(Amount, Share)> {
        let part = |of: i64| Share::Part(Fraction::whole(1).over(&Fraction::whole(of)));
        match self.name.strip_prefix("second ").unwrap_or(self.name) {
            "period" => Amount::only(value).map(|amount| (amount, part(2))),
            "frequency" => Amount::only(value).map(|amount| (amount, Share::Frequency)),
            "swings" => {
                let (count, time) = value.split_first()?;
                let count = count.parse::<u32>().ok().filter(|&count| count > 0)?;
                let amount = Amount::only(after(time, "in")?)?;
                Some((amount, part(2 * i64::from(count))))
            }
            _ => Amount::only(value).map(|amount| (amount, Share::Whole)),
        }
    }

    /// What is expected after the name, on an axis whose unit has a name.
    pub fn expected(&self, unit: &str) -> String {
        let what = match self.name.strip_prefix("second ").unwrap_or(self.name) {
            "period" => "a whole number of ticks, or seconds as in `0.84 s`,".into(),
            "frequency" => "a number above 0 of swings there and back in a second, as in `1.19 Hz`,".into(),
            "swings" => "how many swings there and back in which time, as in `10 in 8.4 s`,".into(),
            _ => self.number_expected(unit),
        };
        format!("{what} after `{}`", self.name)
    }

    /// What is expected of a number that is entered as it is planned.
    fn number_expected(&self, unit: &str) -> String {
        match self.entry {
            WordKind::HalfPeriod => "a whole number of ticks from 0 to 256, or seconds as in `0.42 s`,".into(),
            WordKind::SecondHalfPeriod => "a whole number of ticks from 1 to 256, or seconds as in `0.15 s`,".into(),
            WordKind::SpeedLimit => {
                format!("a whole number of units per tick from 1 to 1048576, or one as in `60 {unit}/s`,")
            }
            WordKind::AccelerationLimit => {
                format!("a whole number of units per tick² from 1 to 65536, or one as in `300 {unit}/s²`,")
            }
            WordKind::StartPosition | WordKind::TargetPosition => {
                format!("a whole number of units from -17179869184 to 17179869183, or one as in `-3.5 {unit}`,")
            }
            WordKind::StartVelocity | WordKind::TargetVelocity => {
                format!("a whole number of units per tick, or one as in `2.5 {unit}/s`,")
            }
            WordKind::TargetAcceleration => {
                format!("a whole number of units per tick², or one as in `0.5 {unit}/s²`,")
            }
            _ => "a whole number of ticks from -4096 to 4096, or seconds as in `-0.8 s`,".into(),
        }
    }
}
