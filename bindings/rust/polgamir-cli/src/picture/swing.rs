//! The swings of the pole under an axis: as they were entered, and as the blend is planned for.

use polgamir::sheet::Rounded;
use polgamir::{Axis, WordKind};

use super::sway::Pole;

/// Half periods in ticks as they were entered, where the sheet has them in another
/// measure and they were rounded.
#[derive(Debug, Clone, Copy, PartialEq, Default)]
pub struct Entered {
    /// The half period.
    pub half_period: Option<f64>,
    /// The second half period.
    pub second_half_period: Option<f64>,
}

impl Entered {
    /// The half periods of an axis as its sheet has them, of those entries that were rounded.
    pub fn of(rounded: &[Rounded], number: usize, axis: &Axis) -> Entered {
        let entered = |entry: WordKind, planned: Option<u32>| {
            let mut of_axis = rounded.iter().filter(|rounded| rounded.axis == Some(number));
            let rounded = of_axis.find(|rounded| rounded.entry == Some(entry))?;
            Some(f64::from(planned?) - rounded.steps_off())
        };
        Entered {
            half_period: entered(WordKind::HalfPeriod, Some(axis.half_period)),
            second_half_period: entered(WordKind::SecondHalfPeriod, axis.second_half_period),
        }
    }
}

/// A swing of the pole under an axis.
#[derive(Debug, Clone, Copy, PartialEq)]
pub struct Swing {
    /// Whether it is that of the second half period.
    pub second: bool,
    /// The ticks from one side to the other that the blend is planned for, at least 1.
    pub half_period: u32,
    /// Those ticks as entered.
    pub entered_half_period: f64,
    /// How far it shrinks in that time, as entered; 1 for a second swing.
    pub ratio: f64,
    /// What the blend is planned for: B / (256 − B), and 1 for a second swing.
    pub planned_ratio: f64,
}

impl Swing {
    /// The swings that the blend of an axis cancels: that of its half period, where the damping has
    /// a weight, and that of its second half period, each where it is above 0.
    pub fn of(axis: &Axis, entered: Entered) -> Vec<Swing> {
        let damping = axis.damping;
        let first = damping.ratio().zip(damping.weight()).map(|(ratio, weight)| Swing {
            second: false,
            half_period: axis.half_period,
            entered_half_period: entered.half_period.unwrap_or(axis.half_period.into()),
            ratio,
            planned_ratio: f64::from(weight) / f64::from(256 - weight),
        });
        let second = axis.second_half_period.map(|half_period| Swing {
            second: true,
            half_period,
            entered_half_period: entered.second_half_period.unwrap_or(half_period.into()),
            ratio: 1.0,
            planned_ratio: 1.0,
        });
        first.into_iter().chain(second).filter(|swing| swing.half_period > 0).collect()
    }

    /// The pole as it was entered.
    pub fn pole(&self) -> Pole {
        Pole::new(self.entered_half_period, self.ratio)
    }

    /// The name of its sway.
    pub fn name(&self) -> &'static str {
        match self.second {
            true => "second sway",
            false => "sway",
        }
    }

    /// The name of its half period.
    pub fn half_period_name(&self) -> &'static str {
        match self.second {
            true => "second half period",
            false => "half period",
        }
    }

    /// Whether its half period was rounded to ticks.
    pub fn half_period_is_rounded(&self) -> bool {
        self.entered_half_period != f64::from(self.half_period)
    }
}
