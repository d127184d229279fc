//! What a tick and a unit stand for: what is shown is scaled by them, and so is
//! what is entered with a measure.

use std::fmt;

use super::amount::{number, seconds_parts, split};
use super::fraction::Fraction;
use super::text::{fault, quoted};
use super::SheetError;
use crate::AXES;

/// What a unit of an axis stands for: `0.01 degree`.
#[derive(Debug, Clone, PartialEq)]
pub struct Unit {
    /// How much of its measure a unit is, above 0.
    pub size: f64,
    /// The measure.
    pub name: String,
}

/// A size as it is entered: exactly, for what is worked out, and in short, for what is shown.
#[derive(Debug, Clone, PartialEq)]
struct Size {
    exact: Fraction,
    shown: f64,
    text: String,
}

/// An entry and the line that it stands on. One that could not be read is kept
/// as `None`: it is on the sheet.
#[derive(Debug, Clone, PartialEq)]
struct Noted<T> {
    entry: Option<T>,
    line: usize,
}

/// A unit with its exact size.
type SizedUnit = (Unit, Size);

/// What the sheet says of its ticks and units.
#[derive(Debug, Clone, PartialEq, Default)]
pub struct Scales {
    /// The seconds of a tick.
    tick: Option<Noted<Size>>,
    /// The unit of every axis that has none of its own.
    common: Option<Noted<SizedUnit>>,
    /// The units that stand among the lines of an axis.
    own: [Option<Noted<SizedUnit>>; AXES],
}

/// A scale that an entry asks for.
pub enum Scale<T> {
    /// The sheet says it.
    Said(T),
    /// The sheet does not say it.
    Lacking,
    /// The line that says it cannot be read, which is told there.
    Unreadable,
}

impl Scales {
    /// The seconds of a tick.
    pub fn tick_seconds(&self) -> Option<f64> {
        Some(self.tick.as_ref()?.entry.as_ref()?.shown)
    }

    /// What a unit of an axis stands for.
    pub fn unit_of(&self, axis: usize) -> Option<&Unit> {
        let own = self.own.get(axis)?.as_ref();
        own.or(self.common.as_ref())?.entry.as_ref().map(|(unit, _)| unit)
    }

    /// The exact seconds of a tick.
    pub fn tick(&self) -> Scale<&Fraction> {
        match &self.tick {
            Some(Noted { entry: Some(size), .. }) => Scale::Said(&size.exact),
            Some(_) => Scale::Unreadable,
            None => Scale::Lacking,
        }
    }

    /// The exact size and the name of a unit of an axis. An axis whose own line
    /// cannot be read has number [`AXES`].
    pub fn unit(&self, axis: usize) -> Scale<(&Fraction, &str)> {
        let Some(own) = self.own.get(axis) else {
            return Scale::Unreadable;
        };
        match own.as_ref().or(self.common.as_ref()) {
            Some(Noted { entry: Some((unit, size)), .. }) => Scale::Said((&size.exact, &unit.name)),
            Some(_) => Scale::Unreadable,
            None => Scale::Lacking,
        }
    }

    /// Takes the seconds of a tick.
    pub fn take_tick(&mut self, line: usize, value: &[&str]) -> Result<(), SheetError> {
        let entry = tick_size(value);
        keep(&mut self.tick, Noted { entry: entry.clone(), line }, "`tick`")?;
        match entry {
            Some(_) => Ok(()),
            None => fault(line, "a number of seconds above 0, as in `0.02` or `20 ms`, after `tick`", quoted(value)),
        }
    }

    /// Takes the unit of an axis, or with `None` that of the whole sheet.
    pub fn take_unit(&mut self, line: usize, axis: Option<usize>, value: &[&str]) -> Result<(), SheetError> {
        let entry = unit_size(value);
        let unit = Noted { entry: entry.clone(), line };
        match axis.map(|axis| self.own.get_mut(axis)) {
            Some(Some(own)) => keep(own, unit, "`unit` for an axis")?,
            Some(None) => {}
            None => keep(&mut self.common, unit, "`unit` before the axes")?,
        }
        match entry {
            Some(_) => Ok(()),
            None => fault(line, "a number above 0, or none for 1, and then a name after `unit`", unit_found(value)),
        }
    }

    /// Writes what holds of the whole sheet.
    pub fn write_whole(&self, f: &mut fmt::Formatter<'_>) -> fmt::Result {
        if let Some(tick) = self.tick.as_ref().and_then(|tick| tick.entry.as_ref()) {
            writeln!(f, "tick {}", tick.text)?;
        }
        match self.common.as_ref().and_then(|unit| unit.entry.as_ref()) {
            Some((unit, size)) => writeln!(f, "unit {} {}", size.text, unit.name),
            None => Ok(()),
        }
    }

    /// Writes the unit of an axis, where it has one of its own.
    pub fn write_of_axis(&self, f: &mut fmt::Formatter<'_>, axis: usize) -> fmt::Result {
        match self.own[axis].as_ref().and_then(|unit| unit.entry.as_ref()) {
            Some((unit, size)) => writeln!(f, "  {:19} {} {}", "unit", size.text, unit.name),
            None => Ok(()),
        }
    }
}

/// The seconds of a tick: a number or a quotient, in seconds or in milliseconds.
fn tick_size(value: &[&str]) -> Option<Size> {
    let (first, rest) = value.split_first()?;
    let (size, attached) = size(first)?;
    let measure = format!("{attached}{}", rest.join(" "));
    let parts = if measure.is_empty() { Some(1) } else { seconds_parts(&measure.to_lowercase()) };
    let exact = size.over(&Fraction::whole(parts?));
    Some(Size { shown: exact.to_f64(), exact, text: value.join(" ") })
}

/// The size of a unit, 1 where no number stands before its name, and the name, in which no word is
/// a number.
fn unit_size(value: &[&str]) -> Option<SizedUnit> {
    let (first, others) = value.split_first()?;
    let (exact, text, name) = match size(first) {
        None => (Fraction::whole(1), "1", value.join(" ")),
        Some((exact, attached)) => {
            let named = [attached].into_iter().chain(others.iter().copied()).filter(|word| !word.is_empty());
            (exact, &first[..first.len() - attached.len()], named.collect::<Vec<_>>().join(" "))
        }
    };
    let is_named = !name.is_empty() && name.split(' ').all(|word| split(word).is_none());
    let size = Size { shown: exact.to_f64(), exact, text: text.into() };
    is_named.then_some((Unit { size: size.shown, name }, size))
}

/// What stands after `unit` that is no unit; where the number stands last, how to write it.
fn unit_found(value: &[&str]) -> String {
    match value.split_last() {
        Some((last, name)) if !name.is_empty() && unit_size(&[&[*last], name].concat()).is_some() => {
            format!("{}: write `unit {last} {}`", quoted(value), name.join(" "))
        }
        _ => quoted(value),
    }
}

/// The size that a word begins with, a number above 0 or a quotient of two, and what follows it in
/// the word.
fn size(word: &str) -> Option<(Fraction, &str)> {
    let (digits, rest) = split(word)?;
    let (size, rest) = match rest.strip_prefix('/').and_then(split) {
        Some((divisor, rest)) => {
            let divisor = number(divisor).filter(|divisor| !divisor.is_zero() && !divisor.is_negative())?;
            (number(digits)?.over(&divisor), rest)
        }
        None => (number(digits)?, rest),
    };
    (!size.is_zero() && !size.is_negative()).then_some((size, rest))
}

/// Keeps an entry that stands once.
fn keep<T>(place: &mut Option<Noted<T>>, found: Noted<T>, name: &str) -> Result<(), SheetError> {
    match place {
        Some(first) => fault(found.line, format!("one {name}"), format!("another beside that of line {}", first.line)),
        None => {
            *place = Some(found);
            Ok(())
        }
    }
}
