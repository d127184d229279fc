//! What a table can leave of a sway on a pole that is not quite as entered: the proved bound, as a
//! number.
//!
//! The theorems are `sway-most` and `measured-most` (docs/METHOD.md, 5.5). Everything here
//! is worked out exactly in whole numbers, and a number that is handed out is rounded upward.

mod fraction;
mod rate;

use std::fmt;

use crate::job::{Axis, Target};
use crate::{FINE_STEPS, LATEST_ARRIVAL};

pub use fraction::Fraction;
use rate::{Misfits, Rate};

/// What a table can leave of a sway at most.
///
/// It is in fine steps where it comes from [`Axis::sway_bound`]: so far is the top of the pole from
/// where it comes to rest, at any time from the arrival on. Where it comes from [`Axis::sway_left`]
/// it is in fine steps per tick² times the unit of the list's entries.
#[derive(Debug, Clone, Copy, PartialEq, Eq, Hash)]
pub struct SwayLeft {
    /// By the exact blend, before the cells are rounded.
    pub exact: u128,
    /// By the cells of the table. The rounding of a cell can push the pole too; no rounding pushes
    /// it by more than the difference.
    pub rounded: u128,
}

/// Why there is no bound.
#[derive(Debug, Clone, Copy, PartialEq, Eq, Hash)]
pub enum NoBound {
    /// A number of the axis is outside its range, or its damping gives no weight:
    /// the planner refuses such an axis.
    Axis,
    /// The arrival is not 1 to 4,096.
    Arrival,
    /// The axis has no second half period.
    SecondSway,
    /// The half period with its error is not above 0 and at most 512 ticks, or the error's
    /// denominator is not 1 to 10,000.
    HalfPeriod,
    /// The swing ratio with its error is not above 0 and at most 1, or the error's
    /// denominator is not 1 to 10,000.
    Ratio,
}

impl fmt::Display for NoBound {
    fn fmt(&self, f: &mut fmt::Formatter<'_>) -> fmt::Result {
        f.write_str(match self {
            NoBound::Axis => "a number of the axis is outside its range",
            NoBound::Arrival => "the arrival is not 1 to 4,096",
            NoBound::SecondSway => "the axis has no second half period",
            NoBound::HalfPeriod => {
                "the half period with its error is not above 0 and at most 512 ticks, or the error has a denominator \
                 above 10,000"
            }
            NoBound::Ratio => {
                "the swing ratio with its error is not above 0 and at most 1, or the error has a denominator above \
                 10,000"
            }
        })
    }
}

impl std::error::Error for NoBound {}

/// How much the planned accelerations of an axis change, and what a blended one is
/// divided by to give fine steps.
#[derive(Debug, Clone, Copy)]
struct Changes {
    most: u128,
    divisor: u128,
}

impl Axis {
    /// W, the most that the planned accelerations of this axis change in all, from tick 0 to the
    /// landing: 4μ + |α| + 2 steps of the axis's grid, where μ is the acceleration limit and α the
    /// target's acceleration in these steps. The grid is 1/256 unit; 1/512 with a second half
    /// period; 1/65,536 for an accelerating target on a damped pole.
    ///
    /// # Errors
    ///
    /// [`NoBound::Axis`].
    pub fn acceleration_changes(&self) -> Result<u64, NoBound> {
        Ok(self.changes()?.most as u64)
    }

    /// What an accepted table of this axis leaves at most of a sway whose misfits are at
    /// most E and whose entries are at most G in size: W × E by the divisor before
    /// rounding, and N × G more as rounded.
    ///
    /// A sway is any list of whole numbers w(0), w(1), ..: w(i) is how the pole stands i
    /// ticks after its top was pushed, in any unit. What is left at a tick m from the
    /// arrival on is the sum of each change of acceleration at a row k times w(m − k). The
    /// list's misfit at i is A·w(i + h) + B·w(i), and with a second half period h₂ that at
    /// i + h₂ plus that at i. It is 0 where the list fits the pole as entered. The misfits
    /// and entries that count are those of w(m − N) to w(m).
    ///
    /// # Errors
    ///
    /// [`NoBound::Axis`], [`NoBound::Arrival`].
    pub fn sway_left(&self, arrival: u32, misfit: u64, size: u64) -> Result<SwayLeft, NoBound> {
        self.left(arrival, misfit.into(), size.into(), 1)
    }

    /// E, the greatest misfit of a sway that fits a half period and a swing ratio other than the
    /// entered ones by these errors, where no entry is above `size`, G, and no two neighbours are
    /// more than `difference`, D, apart: 2|b − B|·G + A·|p − h|·D, but never more than 256·G; twice
    /// that with a second half period. Here p is the true half period, and b the weight of the true
    /// ratio, which need not be whole. An error is the true number less the entered one.
    ///
    /// # Errors
    ///
    /// [`NoBound::Axis`], [`NoBound::HalfPeriod`], [`NoBound::Ratio`].
    pub fn misfit_bound(
        &self,
        half_period_error: Fraction,
        ratio_error: Fraction,
        size: u32,
        difference: u32,
    ) -> Result<u64, NoBound> {
        let misfits = self.first_rate()?.misfits(half_period_error, ratio_error)?;
        Ok(misfits.greatest(size.into(), difference.into()) as u64)
    }

    /// How far the top of the pole can be from where it comes to rest, at any time from the arrival
    /// on, where its half period and its swing ratio are other than the entered ones by these
    /// errors: a bound in fine steps that no table of this axis exceeds.
    ///
    /// The pole is a damped oscillator of one rate, at rest before row 0, and the acceleration of a
    /// row holds until the next row. A push of 1 unit per tick² then swings its top by at most G =
    /// (p/π)² units, and by at most D = p/π units from tick to tick, p being the true half period.
    /// The bound is [`sway_left`](Axis::sway_left) of the [`misfit_bound`](Axis::misfit_bound) for
    /// this G and this D, with 106/333, which is a little above it, for 1/π. It is linear in a
    /// small error, and it holds for every leg: most leave much less.
    ///
    /// ```
    /// use polgamir::{Axis, Damping, Fraction, RestPoint, Target};
    ///
    /// let pan = Axis {
    ///     start: RestPoint { position: 0, velocity: 0 },
    ///     speed_limit: 10,
    ///     acceleration_limit: 1,
    ///     half_period: 10,
    ///     damping: Damping::NONE,
    ///     second_half_period: None,
    ///     target: Target::still(300),
    /// };
    /// // A pole that swings over in 10 1/2 ticks, and not in 10; the table arrives at tick 60.
    /// let left = pan.sway_bound(60, Fraction::new(1, 2), Fraction::ZERO).unwrap();
    /// assert_eq!(left.exact, 858); // 3.35 units
    /// assert_eq!(pan.sway_bound(60, Fraction::ZERO, Fraction::ZERO).unwrap().exact, 0);
    /// ```
    ///
    /// # Errors
    ///
    /// Those of [`NoBound`] except [`NoBound::SecondSway`].
    pub fn sway_bound(
        &self,
        arrival: u32,
        half_period_error: Fraction,
        ratio_error: Fraction,
    ) -> Result<SwayLeft, NoBound> {
        self.pole_left(arrival, self.first_rate()?.misfits(half_period_error, ratio_error)?)
    }

    /// As [`Axis::sway_bound`], of the second rate of a pole that swings at two. It is entered as
    /// undamped, so that its ratio is 1 and an error of it is not above 0.
    ///
    /// # Errors
    ///
    /// Those of [`NoBound`].
    pub fn second_sway_bound(
        &self,
        arrival: u32,
        half_period_error: Fraction,
        ratio_error: Fraction,
    ) -> Result<SwayLeft, NoBound> {
        self.pole_left(arrival, self.second_rate()?.misfits(half_period_error, ratio_error)?)
    }

    /// What is left of the swing of an oscillator with some misfits.
    fn pole_left(&self, arrival: u32, misfits: Misfits) -> Result<SwayLeft, NoBound> {
        let pole = misfits.of_oscillator();
        self.left(arrival, pole.misfit, pole.size, pole.parts)
    }

    /// What is left of a sway with misfit/parts as its greatest misfit and
    /// size/parts as its greatest entry.
    fn left(&self, arrival: u32, misfit: u128, size: u128, parts: u128) -> Result<SwayLeft, NoBound> {
        let Changes { most, divisor } = self.changes()?;
        if !(1..=LATEST_ARRIVAL).contains(&arrival) {
            return Err(NoBound::Arrival);
        }
        let exact = most * misfit;
        let rounded = exact + divisor * u128::from(arrival) * size;
        Ok(SwayLeft { exact: exact.div_ceil(divisor * parts), rounded: rounded.div_ceil(divisor * parts) })
    }

    /// The second weight, where every number of the axis is in its range.
    fn allowed_weight(&self) -> Result<u32, NoBound> {
        match self.out_of_range().next() {
            Some(_) => Err(NoBound::Axis),
            None => self.damping.weight().ok_or(NoBound::Axis),
        }
    }

    fn changes(&self) -> Result<Changes, NoBound> {
        let damped = self.half_period > 0 && self.allowed_weight()? != 128;
        let target = match self.target {
            Target::Fixed(_) => 0,
            Target::Moving(state) => state.acceleration.unsigned_abs(),
        };
        let (finer, weights) = match self.second_half_period {
            Some(_) => (2, 512),
            None if damped && target > 0 => (256, 256),
            None => (1, 256),
        };
        let steps = |acceleration: u64| u128::from(acceleration) * FINE_STEPS as u128 * finer;
        let most = 4 * steps(self.acceleration_limit.into()) + steps(target) + 2;
        Ok(Changes { most, divisor: weights * finer })
    }

    fn first_rate(&self) -> Result<Rate, NoBound> {
        let second_weight = self.allowed_weight()?.into();
        let others = if self.second_half_period.is_some() { 2 } else { 1 };
        Ok(Rate { first_weight: 256 - second_weight, second_weight, half_period: self.half_period.into(), others })
    }

    fn second_rate(&self) -> Result<Rate, NoBound> {
        self.allowed_weight()?;
        let half_period = self.second_half_period.ok_or(NoBound::SecondSway)?.into();
        Ok(Rate { first_weight: 1, second_weight: 1, half_period, others: 256 })
    }
}
