//! The ranges of an axis's whole numbers: what refusals 4, 5, 15 and 6 look at.
//! Damping as measured is refusal 12's.

use std::ops::RangeInclusive;

use crate::job::Axis;
use crate::words::WordKind;
use crate::LATEST_ARRIVAL;

/// A number of an axis that is outside its range.
#[derive(Debug, Clone, PartialEq, Eq, Hash)]
pub struct OutOfRange {
    /// Which number of the axis it is.
    pub entry: WordKind,
    /// The number.
    pub value: i64,
    /// The range.
    pub range: RangeInclusive<i64>,
}

impl Axis {
    /// The range of a number of this axis: a velocity's is set by the speed limit, an
    /// acceleration's by the acceleration limit.
    pub fn range_of(&self, entry: WordKind) -> RangeInclusive<i64> {
        let in_size = |greatest: u32| -i64::from(greatest)..=i64::from(greatest);
        match entry {
            WordKind::SpeedLimit => 1..=1_048_576,
            WordKind::AccelerationLimit => 1..=65_536,
            WordKind::HalfPeriod => 0..=256,
            WordKind::SecondWeight => 1..=128,
            WordKind::SecondHalfPeriod => 1..=256,
            WordKind::StartVelocity | WordKind::TargetVelocity => in_size(self.speed_limit),
            WordKind::TargetAcceleration => in_size(self.acceleration_limit),
            WordKind::TargetTick => in_size(LATEST_ARRIVAL),
            _ => {
                let (least, greatest) = entry.range();
                least..=greatest
            }
        }
    }

    /// The numbers of this axis that are outside their ranges. The planner refuses a job that has
    /// one, by the number of [`OutOfRange::refusal_number`]; which one is at fault, where there are
    /// several on an axis, it does not say.
    pub fn out_of_range(&self) -> impl Iterator<Item = OutOfRange> + '_ {
        self.entries().filter_map(|(entry, value)| {
            let range = self.range_of(entry);
            (!range.contains(&value)).then_some(OutOfRange { entry, value, range })
        })
    }
}

impl OutOfRange {
    /// The number by which the planner refuses it: 4 for limits, 5 for the blend, 15 for the second
    /// half period, 6 for start and target.
    pub const fn refusal_number(&self) -> u32 {
        match self.entry {
            WordKind::SpeedLimit | WordKind::AccelerationLimit => 4,
            WordKind::HalfPeriod | WordKind::SecondWeight => 5,
            WordKind::SecondHalfPeriod => 15,
            _ => 6,
        }
    }
}
