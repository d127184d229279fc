//! The lines that a crew goes through before the first sighting.

use crate::refusal::Refusal;

/// A line of the set-up sheet that a crew goes through before the first sighting.
#[derive(Debug, Clone, Copy, PartialEq, Eq, Hash)]
pub enum SheetLine {
    /// The pole's half period and damping.
    TapThePole,
    /// The limits of the motors.
    EnterLimits,
    /// Where each axis is, and where it is to be.
    EnterStartAndTarget,
    /// The common arrival.
    ReadTheArrival,
    /// The refusal, where there is one.
    ReadTheRefusal,
}

impl SheetLine {
    /// The lines in the order of the sheet.
    pub const ALL: [SheetLine; 5] = [
        SheetLine::TapThePole,
        SheetLine::EnterLimits,
        SheetLine::EnterStartAndTarget,
        SheetLine::ReadTheArrival,
        SheetLine::ReadTheRefusal,
    ];

    /// The line as it stands on the sheet.
    pub const fn text(self) -> &'static str {
        match self {
            SheetLine::TapThePole => "tap the pole, note the half period and how far each swing shrinks",
            SheetLine::EnterLimits => "enter speed and acceleration limits for each axis",
            SheetLine::EnterStartAndTarget => "enter start and target, still or moving",
            SheetLine::ReadTheArrival => "read the arrival tick before the first sighting",
            SheetLine::ReadTheRefusal => "read any refusal number",
        }
    }

    /// What the line is there to catch.
    pub const fn catches(self) -> &'static str {
        match self {
            SheetLine::TapThePole => "a blend tuned for another pole",
            SheetLine::EnterLimits => "a table that the motors cannot follow",
            SheetLine::EnterStartAndTarget => "a head that starts with a jump",
            SheetLine::ReadTheArrival => "pan arriving while tilt still travels",
            SheetLine::ReadTheRefusal => "a guess taken for a plan",
        }
    }

    /// The line to look at after a refusal.
    pub const fn after(refusal: &Refusal) -> SheetLine {
        match refusal {
            Refusal::Damping { .. } | Refusal::Blend { .. } | Refusal::SecondHalfPeriod { .. } => SheetLine::TapThePole,
            Refusal::Mask | Refusal::Limits { .. } => SheetLine::EnterLimits,
            Refusal::StartOrTarget { .. }
            | Refusal::Acceleration { .. }
            | Refusal::FlyingTarget { .. }
            | Refusal::NoCommonArrival { .. } => SheetLine::EnterStartAndTarget,
            Refusal::AskedArrival
            | Refusal::Windows { .. }
            | Refusal::NotReachable { .. }
            | Refusal::TableTooShort { .. } => SheetLine::ReadTheArrival,
            Refusal::Words { .. }
            | Refusal::LongPosition { .. }
            | Refusal::WordsTooFew { .. }
            | Refusal::FirstCandidate
            | Refusal::Other { .. } => SheetLine::ReadTheRefusal,
        }
    }
}
