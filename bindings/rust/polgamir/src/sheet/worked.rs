//! From what is entered to whole ticks and units.

use super::amount::Amount;
use super::fraction::{Fraction, Rounding};
use super::notes::Entered;
use super::quantity::{Place, Quantity, Rule, Share};
use super::rounded::Rounded;
use super::scales::{Scale, Scales};
use super::text::{fault, whole_number};
use super::SheetError;
use crate::job::Axis;
use crate::AXES;

/// A number in a crew's measure, or in ticks and units.
#[derive(Debug)]
pub struct Measured {
    /// The number.
    pub value: Fraction,
    /// What one tick or unit is in that measure.
    pub step: Fraction,
    /// The name of the measure.
    pub name: String,
    /// What it measures.
    pub quantity: Quantity,
    /// Whether it is a crew's measure.
    pub is_scaled: bool,
    /// Whether something else was entered, from which the number is worked out.
    pub is_worked_out: bool,
}

/// What turns entries into whole ticks and units, and what was found on the way.
#[derive(Debug, Default)]
pub struct Worked {
    /// What a tick and a unit stand for.
    pub scales: Scales,
    /// The entries that were rounded.
    pub rounded: Vec<Rounded>,
    /// The numbers of axes, and the arrival, that have a crew's unit or follow from something else.
    pub entered: Vec<Entered>,
    /// Whether it has been told that the tick is lacking.
    lacks_tick: bool,
    /// Whether it has been told that the unit of an axis is lacking.
    lacks_unit: [bool; AXES],
}

impl Worked {
    /// The whole number of an entry. `None` where it cannot be told because of
    /// another line, of which that is told.
    pub fn whole(
        &mut self,
        place: &Place,
        amount: &Amount,
        share: &Share,
        rule: Rule,
    ) -> Result<Option<i64>, SheetError> {
        let measured = match (amount.is_measured(), share) {
            (false, Share::Whole) => return counted(amount, rule).map(Some).map_or_else(|| unexpected(place), Ok),
            (false, Share::Part(_)) => counted(amount, rule).map(|number| Measured::counted(number, rule.quantity)),
            (false, Share::Frequency) => None,
            (true, Share::Frequency) => match self.frequency(place, amount)? {
                None => return Ok(None),
                found => found,
            },
            (true, _) => match self.measured(place, amount, rule.quantity)? {
                None => return Ok(None),
                found => found,
            },
        };
        let Some(mut measured) = measured else {
            return unexpected(place);
        };
        if let Share::Part(part) = share {
            (measured.value, measured.is_worked_out) = (measured.value.times(part), true);
        }
        let number = measured.value.over(&measured.step).rounded(rule.rounding);
        let fits = |number: &i64| rule.is_signed || u32::try_from(*number).is_ok();
        let Some(number) = number.filter(|number| fits(number) && (rule.is_signed || !measured.value.is_negative()))
        else {
            return unexpected(place);
        };
        if number == 0 && rule.is_kept_from_zero && !measured.value.is_zero() {
            return self.comes_to_nothing(place, &measured);
        }
        self.rounded.extend(Rounded::new(place, &measured, number));
        let text = format!("{} {}", place.name, place.entered);
        self.entered.extend(place.entry.map(|entry| Entered { axis: place.axis, entry, text }));
        Ok(Some(number))
    }

    /// Works out what the half periods of an axis that are off leave.
    pub fn weigh(&mut self, number: usize, axis: &Axis) {
        let one = Fraction::whole(1);
        let unit = match self.scales.unit(number) {
            Scale::Said(unit) => unit,
            _ => (&one, "units"),
        };
        for rounded in self.rounded.iter_mut().filter(|rounded| rounded.axis == Some(number)) {
            rounded.weigh(axis, unit);
        }
    }

    /// The half period of a frequency.
    fn frequency(&mut self, place: &Place, amount: &Amount) -> Result<Option<Measured>, SheetError> {
        let number = amount.number().filter(|number| !number.is_zero() && !number.is_negative());
        let Some(number) = number.filter(|_| amount.measure == "hz") else {
            return unexpected(place);
        };
        let Some(step) = self.tick(place)? else {
            return Ok(None);
        };
        let value = Fraction::whole(1).over(&number.times(&Fraction::whole(2)));
        let (name, quantity) = ("s".into(), Quantity::Time);
        Ok(Some(Measured { value, step, name, quantity, is_scaled: true, is_worked_out: true }))
    }

    /// A number that has a measure.
    fn measured(&mut self, place: &Place, amount: &Amount, quantity: Quantity) -> Result<Option<Measured>, SheetError> {
        let made = |value, step, name| Measured { value, step, name, quantity, is_scaled: true, is_worked_out: false };
        if amount.number().is_none() {
            return unexpected(place);
        }
        if quantity == Quantity::Time {
            let Some(value) = amount.seconds() else {
                return unexpected(place);
            };
            let tick = self.tick(place)?;
            return Ok(tick.map(|tick| made(value, tick, "s".into())));
        }
        let Some((size, unit)) = self.unit(place)? else {
            return Ok(None);
        };
        let name = quantity.measure(&unit);
        let Some(value) = amount.in_unit(&unit, quantity.endings()) else {
            let expected = format!("a whole number, or one of `{name}`, after `{}`", place.name);
            return fault(place.line, expected, format!("`{}`", place.entered));
        };
        if quantity == Quantity::Position {
            return Ok(Some(made(value, size, name)));
        }
        let Some(tick) = self.tick(place)? else {
            return Ok(None);
        };
        let by_tick = size.over(&tick);
        let step = if quantity == Quantity::Velocity { by_tick } else { by_tick.over(&tick) };
        Ok(Some(made(value, step, name)))
    }

    /// The exact seconds of a tick, which an entry asks for. That they are lacking is told once.
    fn tick(&mut self, place: &Place) -> Result<Option<Fraction>, SheetError> {
        match self.scales.tick() {
            Scale::Said(tick) => Ok(Some(tick.clone())),
            Scale::Unreadable => Ok(None),
            Scale::Lacking if std::mem::replace(&mut self.lacks_tick, true) => Ok(None),
            Scale::Lacking => {
                let found = format!("none for `{} {}`", place.name, place.entered);
                fault(place.line, "`tick` with its seconds on the sheet", found)
            }
        }
    }

    /// The exact size and the name of the unit of an entry's axis. That it is
    /// lacking is told once for an axis.
    fn unit(&mut self, place: &Place) -> Result<Option<(Fraction, String)>, SheetError> {
        let axis = place.axis.unwrap_or(AXES);
        match self.scales.unit(axis) {
            Scale::Said((size, name)) => Ok(Some((size.clone(), name.into()))),
            Scale::Unreadable => Ok(None),
            Scale::Lacking if std::mem::replace(&mut self.lacks_unit[axis], true) => Ok(None),
            Scale::Lacking => {
                let found = format!("none for `{} {}`", place.name, place.entered);
                fault(place.line, format!("`unit` for axis {axis}, or before the axes"), found)
            }
        }
    }

    /// The error of an entry that is not 0 and would be rounded to 0: which tick or unit would do.
    fn comes_to_nothing<T>(&self, place: &Place, measured: &Measured) -> Result<T, SheetError> {
        let (value, quantity) = (&measured.value, measured.quantity);
        let least = match quantity {
            Quantity::Time => "half a tick".into(),
            _ => format!("1 {}", quantity.steps(true)),
        };
        let steps = value.over(&measured.step).shown(3, Rounding::Nearest);
        let mut found = format!("`{}`, which is {steps} {}", place.entered, quantity.steps(false));
        if measured.is_scaled {
            found += &self.what_would_do(place, measured);
        }
        fault(place.line, format!("at least {least} after `{}`", place.name), found)
    }

    /// Which tick, or which unit, makes at least one of what is entered:
    /// numbers of three digits that are enough.
    fn what_would_do(&self, place: &Place, measured: &Measured) -> String {
        let value = &measured.value;
        if measured.quantity == Quantity::Time {
            return format!("; `tick {}` or a shorter one would do", value.shown(3, Rounding::Down));
        }
        let (Scale::Said(tick), Scale::Said((size, name))) =
            (self.scales.tick(), self.scales.unit(place.axis.unwrap_or(AXES)))
        else {
            return String::new();
        };
        let (longer, finer) = match measured.quantity {
            Quantity::Acceleration => (size.over(value).root_shown(), value.times(tick).times(tick)),
            _ => (size.over(value).shown(3, Rounding::Up), value.times(tick)),
        };
        let finer = finer.shown(3, Rounding::Down);
        format!("; `tick {longer}` or a longer one would do, or `unit {finer} {name}` or a finer one")
    }
}

/// The error of an entry that is not what is expected in its place.
fn unexpected<T>(place: &Place) -> Result<T, SheetError> {
    fault(place.line, place.expected.as_str(), format!("`{}`", place.entered))
}

/// A number without a measure: whole ticks or units.
fn counted(amount: &Amount, rule: Rule) -> Option<i64> {
    match rule.is_signed {
        true => whole_number(&amount.digits),
        false => amount.digits.parse::<u32>().ok().map(i64::from),
    }
}

impl Measured {
    /// A whole number of ticks or units.
    fn counted(number: i64, quantity: Quantity) -> Measured {
        let (value, step, name) = (Fraction::whole(number), Fraction::whole(1), quantity.steps(false).into());
        Measured { value, step, name, quantity, is_scaled: false, is_worked_out: false }
    }
}
