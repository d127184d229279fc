//! The sheet of a tour.

use std::fmt;

use super::notes::{EntryLine, Notes};
use super::{write_damping, write_entry, Rounded, Sheet, Unit};
use crate::tour::{Stop, Tour};
use crate::words::WordKind;

/// A tour and its stops, with what their sheet says beside them.
#[derive(Debug, Clone, PartialEq, Default)]
pub struct TourSheet {
    /// The tour that the sheet asks for.
    pub tour: Tour,
    /// Its stops.
    pub stops: Vec<Stop>,
    pub(super) notes: Notes,
    pub(super) stop_lines: Vec<usize>,
}

impl TourSheet {
    /// The sheet of a tour over stops, without names.
    pub fn new(tour: Tour, stops: Vec<Stop>) -> TourSheet {
        TourSheet { tour, stops, ..TourSheet::default() }
    }

    /// The name that the sheet gives to an axis.
    pub fn axis_name(&self, number: usize) -> Option<&str> {
        self.notes.axis_name(number)
    }

    /// What to call an axis: `axis 0`, or `axis 0 pan` where the sheet names it.
    pub fn axis_title(&self, number: usize) -> String {
        self.notes.axis_title(number)
    }

    /// The entries that no whole number of ticks or units meets, in the order of their lines: what
    /// was entered, what is planned and by how much it is off.
    pub fn rounded(&self) -> &[Rounded] {
        &self.notes.rounded
    }

    /// The seconds of a tick, where the sheet says them: for what is shown, never for what is
    /// planned.
    pub fn tick_seconds(&self) -> Option<f64> {
        self.notes.scales.tick_seconds()
    }

    /// What a unit of an axis stands for, where the sheet says it: for what is
    /// shown, never for what is planned.
    pub fn unit_of(&self, number: usize) -> Option<&Unit> {
        self.notes.scales.unit_of(number)
    }

    /// The line, from 1, that a stop stands on. A sheet that was not read from text has no lines.
    pub fn line_of_stop(&self, index: usize) -> Option<usize> {
        self.stop_lines.get(index).copied()
    }

    /// The sheet of a leg's job, or `None` where there is no such stop. Its
    /// positions have the lines of the stops.
    pub fn leg(&self, index: usize) -> Option<Sheet> {
        let mut sheet = Sheet { job: self.tour.leg(&self.stops, index)?, notes: self.notes.clone() };
        let before = index.checked_sub(1).and_then(|before| self.line_of_stop(before));
        if let Some(line) = before {
            sheet.notes.lines.retain(|entry| entry.entry != WordKind::StartPosition);
            sheet.notes.lines.extend(self.position_lines(WordKind::StartPosition, line));
        }
        if let Some(line) = self.line_of_stop(index) {
            sheet.notes.lines.extend(self.position_lines(WordKind::TargetPosition, line));
        }
        Some(sheet)
    }

    /// One line as that of a position of every axis.
    fn position_lines(&self, entry: WordKind, line: usize) -> impl Iterator<Item = EntryLine> + '_ {
        self.tour.entered().map(move |(number, _)| EntryLine { axis: Some(number), entry, line })
    }
}

/// Writes the sheet in full, in a form that reads back as the same sheet. A tour without
/// stops has no sheet that reads back.
impl fmt::Display for TourSheet {
    fn fmt(&self, f: &mut fmt::Formatter<'_>) -> fmt::Result {
        self.notes.scales.write_whole(f)?;
        for (number, axis) in self.tour.entered() {
            writeln!(f, "{}", self.axis_title(number))?;
            self.notes.scales.write_of_axis(f, number)?;
            write_entry(f, WordKind::HalfPeriod, axis.half_period.into())?;
            write_damping(f, axis.damping)?;
            if let Some(ticks) = axis.second_half_period {
                write_entry(f, WordKind::SecondHalfPeriod, ticks.into())?;
            }
            write_entry(f, WordKind::SpeedLimit, axis.speed_limit.into())?;
            write_entry(f, WordKind::AccelerationLimit, axis.acceleration_limit.into())?;
            write_entry(f, WordKind::StartPosition, axis.start)?;
            writeln!(f)?;
        }
        for stop in &self.stops {
            let positions: String =
                self.tour.entered().map(|(number, _)| format!(" {}", stop.positions[number])).collect();
            writeln!(f, "stop{positions} dwell {}", stop.dwell)?;
        }
        Ok(())
    }
}
