//! An axis of a sheet, entry by entry.

use super::entries::{NumberLine, DAMPING, DAMPINGS, NUMBERS};
use super::notes::EntryLine;
use super::quantity::{Place, Rule};
use super::text::{after, fault, quoted};
use super::worked::Worked;
use super::{SheetError, TargetKind, ENTRIES};
use crate::damping::Damping;
use crate::job::{Axis, RestPoint, State, Target};
use crate::tour::TourAxis;
use crate::words::WordKind;

/// The entries of an axis of a tour that are numbers.
const TOUR_ENTRIES: [WordKind; 5] = [
    WordKind::HalfPeriod,
    WordKind::SecondHalfPeriod,
    WordKind::SpeedLimit,
    WordKind::AccelerationLimit,
    WordKind::StartPosition,
];

/// An entry that is a number, with the line that it stands on; 0 where it could not be read.
struct Entry {
    kind: WordKind,
    line: usize,
    number: i64,
}

/// An axis being read.
pub struct Draft {
    /// The number of the axis; [`AXES`](crate::AXES) for one whose line is
    /// wrong, which is read and then left.
    pub number: usize,
    /// What to call the axis.
    title: String,
    /// The line that the axis begins at.
    pub line: usize,
    entries: Vec<Entry>,
    /// The damping, with its line; any that could not be read.
    damping: Option<(Damping, usize)>,
    /// What the target is, where it could be read, with the line that says so.
    target: Option<(Option<TargetKind>, usize)>,
}

impl Draft {
    /// An axis that begins at a line.
    pub fn new(number: usize, title: String, line: usize) -> Draft {
        Draft { number, title, line, entries: Vec::new(), damping: None, target: None }
    }

    /// Takes an entry of the axis.
    pub fn take(&mut self, line: usize, words: &[&str], worked: &mut Worked) -> Result<(), SheetError> {
        for (name, expected, read) in DAMPINGS {
            if let Some(value) = after(words, name) {
                return self.take_damping(line, read(value), || format!("{expected} after `{name}`"), value);
            }
        }
        for number in NUMBERS {
            if let Some(value) = after(words, number.name) {
                return self.take_number(line, number, value, worked);
            }
        }
        if let Some(value) = after(words, "target") {
            return self.take_target(line, value);
        }
        let damping = |kind: &WordKind| if *kind == WordKind::SecondWeight { DAMPING } else { kind.name() };
        let names: Vec<&str> = ENTRIES.iter().map(damping).collect();
        fault(
            line,
            format!(
                "`arrival`, `window`, `dwell`, `tick`, `unit`, `axis`, `stop`, `target` or one of: {}",
                names.join(", ")
            ),
            quoted(words),
        )
    }

    /// Takes an entry that is a number.
    fn take_number(
        &mut self,
        line: usize,
        number: NumberLine,
        value: &[&str],
        worked: &mut Worked,
    ) -> Result<(), SheetError> {
        let kind = number.entry;
        if let Some(first) = self.entry(kind) {
            let expected = format!("one `{}` for axis {}", kind.name(), self.number);
            return fault(line, expected, format!("another beside that of line {}", first.line));
        }
        self.entries.push(Entry { kind, line, number: 0 });
        let unit = worked.scales.unit_of(self.number).map_or("degree", |unit| &unit.name);
        let place = Place {
            line,
            axis: Some(self.number),
            entry: Some(kind),
            whose: self.title.clone(),
            name: number.name,
            entered: value.join(" "),
            expected: number.expected(unit),
        };
        let Some((amount, share)) = number.read(value) else {
            return fault(line, place.expected, quoted(value));
        };
        let found = worked.whole(&place, &amount, &share, Rule::of(kind))?;
        if let (Some(entry), Some(number)) = (self.entries.last_mut(), found) {
            entry.number = number;
        }
        Ok(())
    }

    /// Takes the damping, where it could be read from a value.
    fn take_damping(
        &mut self,
        line: usize,
        damping: Option<Damping>,
        expected: impl Fn() -> String,
        value: &[&str],
    ) -> Result<(), SheetError> {
        if let Some((_, first)) = self.damping {
            let expected = format!("one of {DAMPING} for axis {}", self.number);
            return fault(line, expected, format!("another beside that of line {first}"));
        }
        self.damping = Some((damping.unwrap_or(Damping::NONE), line));
        match damping {
            Some(_) => Ok(()),
            None => fault(line, expected(), quoted(value)),
        }
    }

    /// The damping.
    fn damping(&self, errors: &mut Vec<SheetError>) -> Damping {
        self.damping.map_or_else(|| self.lacks(DAMPING, Damping::NONE, errors), |(damping, _)| damping)
    }

    /// The second half period, of which an axis has a line only where its pole swings at two rates.
    fn second_half_period(&self) -> Option<u32> {
        // It was read as a u32, so the cast keeps it.
        self.entry(WordKind::SecondHalfPeriod).map(|entry| entry.number as u32)
    }

    /// Takes what the target is.
    fn take_target(&mut self, line: usize, value: &[&str]) -> Result<(), SheetError> {
        if let Some((_, first)) = self.target {
            let expected = format!("one `target` for axis {}", self.number);
            return fault(line, expected, format!("another beside that of line {first}"));
        }
        let kind = match value {
            [word] => TargetKind::ALL.into_iter().find(|kind| word.eq_ignore_ascii_case(kind.name())),
            _ => None,
        };
        self.target = Some((kind, line));
        match kind {
            Some(_) => Ok(()),
            None => fault(line, "`still` or `moving` after `target`", quoted(value)),
        }
    }

    /// The lines of the entries.
    pub fn lines(&self) -> impl Iterator<Item = EntryLine> + '_ {
        let damping = self.damping.map(|(_, line)| (WordKind::SecondWeight, line));
        let lines = self.entries.iter().map(|entry| (entry.kind, entry.line)).chain(damping);
        lines.map(|(entry, line)| EntryLine { axis: Some(self.number), entry, line })
    }

    /// The axis of a tour whose first stop stands on a line: legs start and end at
    /// rest, at the stops. What is wrong with it is added to the errors; with an error
    /// there is no sheet, and the axis is any.
    pub fn tour_axis(&self, first_stop: usize, errors: &mut Vec<SheetError>) -> TourAxis {
        let unwanted = self.entries.iter().filter(|entry| !TOUR_ENTRIES.contains(&entry.kind));
        let unwanted = unwanted.map(|entry| (entry.kind.name(), entry.line));
        for (name, line) in unwanted.chain(self.target.map(|(_, line)| ("target", line))) {
            let found = format!("`{name}` beside `stop` of line {first_stop}");
            errors.extend(fault::<()>(line, format!("no `{name}`"), found).err());
        }
        TourAxis {
            half_period: self.unsigned(WordKind::HalfPeriod, errors),
            damping: self.damping(errors),
            second_half_period: self.second_half_period(),
            speed_limit: self.unsigned(WordKind::SpeedLimit, errors),
            acceleration_limit: self.unsigned(WordKind::AccelerationLimit, errors),
            start: self.number(WordKind::StartPosition, errors),
        }
    }

    /// The axis with all its entries. What is wrong with it is added to the errors; with an error
    /// there is no sheet, and the axis is any.
    pub fn axis(&self, errors: &mut Vec<SheetError>) -> Axis {
        Axis {
            half_period: self.unsigned(WordKind::HalfPeriod, errors),
            damping: self.damping(errors),
            second_half_period: self.second_half_period(),
            speed_limit: self.unsigned(WordKind::SpeedLimit, errors),
            acceleration_limit: self.unsigned(WordKind::AccelerationLimit, errors),
            start: RestPoint {
                position: self.number(WordKind::StartPosition, errors),
                velocity: self.number(WordKind::StartVelocity, errors),
            },
            target: self.target(errors),
        }
    }

    /// The target.
    fn target(&self, errors: &mut Vec<SheetError>) -> Target {
        let (kind, line) = match self.target {
            Some((Some(kind), line)) => (kind, line),
            Some((None, _)) => return Target::still(0),
            None => return self.lacks("`target still` or `target moving`", Target::still(0), errors),
        };
        for entry in self.entries.iter().filter(|entry| !kind.has(entry.kind)) {
            let name = entry.kind.name();
            let found = format!("`{name}` beside `target {}` of line {line}", kind.name());
            errors.extend(fault::<()>(entry.line, format!("no `{name}`"), found).err());
        }
        self.target_of(kind, errors)
    }

    /// The target of a kind.
    fn target_of(&self, kind: TargetKind, errors: &mut Vec<SheetError>) -> Target {
        let position = self.number(WordKind::TargetPosition, errors);
        if kind == TargetKind::Still {
            return Target::still(position);
        }
        let velocity = self.number(WordKind::TargetVelocity, errors);
        if kind == TargetKind::Flying {
            return Target::Fixed(RestPoint { position, velocity });
        }
        let acceleration = self.number(WordKind::TargetAcceleration, errors);
        let tick = self.number(WordKind::TargetTick, errors);
        Target::Moving(State { position, velocity, acceleration, tick })
    }

    /// An entry, where it has been taken.
    fn entry(&self, kind: WordKind) -> Option<&Entry> {
        self.entries.iter().find(|entry| entry.kind == kind)
    }

    /// The number of an entry.
    fn number(&self, kind: WordKind, errors: &mut Vec<SheetError>) -> i64 {
        match self.entry(kind) {
            Some(entry) => entry.number,
            None => self.lacks(&format!("`{}`", kind.name()), 0, errors),
        }
    }

    /// The number of an entry that is from 0 up.
    fn unsigned(&self, kind: WordKind, errors: &mut Vec<SheetError>) -> u32 {
        // It was read as a u32, so the cast keeps it.
        self.number(kind, errors) as u32
    }

    /// Tells that the axis lacks an entry, at the line where the axis begins,
    /// and gives any value in its place.
    fn lacks<T>(&self, entry: &str, any: T, errors: &mut Vec<SheetError>) -> T {
        let expected = format!("{entry} for axis {}", self.number);
        errors.extend(fault::<()>(self.line, expected, "none among its lines").err());
        any
    }
}
