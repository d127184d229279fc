//! What a sheet says beside its numbers.

use super::rounded::Rounded;
use super::scales::Scales;
use crate::words::WordKind;
use crate::AXES;

/// The names of the axes, what a tick and a unit stand for, and the lines that the entries stand
/// on.
#[derive(Debug, Clone, PartialEq, Default)]
pub struct Notes {
    /// The name of each axis that has one.
    pub names: [Option<String>; AXES],
    /// What a tick and a unit stand for.
    pub scales: Scales,
    /// The entries that were rounded, in the order of their lines.
    pub rounded: Vec<Rounded>,
    /// The entries that have a crew's unit.
    pub entered: Vec<Entered>,
    /// The lines of the entries.
    pub lines: Vec<EntryLine>,
    /// The lines of the windows.
    pub windows: Vec<usize>,
    /// The line of the dwell in them.
    pub dwell: Option<usize>,
}

/// An entry as it stands on the sheet.
#[derive(Debug, Clone, PartialEq, Eq)]
pub struct Entered {
    /// The axis, or `None` for an entry of the whole job.
    pub axis: Option<usize>,
    /// What stands there.
    pub entry: WordKind,
    /// Its name and its value: `swings 10 in 8.4 s`.
    pub text: String,
}

/// The line of an entry.
#[derive(Debug, Clone, Copy, PartialEq, Eq)]
pub struct EntryLine {
    /// The axis, or `None` for an entry of the whole job.
    pub axis: Option<usize>,
    /// What stands there.
    pub entry: WordKind,
    /// The line, from 1.
    pub line: usize,
}

impl Notes {
    /// The name of an axis.
    pub fn axis_name(&self, number: usize) -> Option<&str> {
        self.names.get(number)?.as_deref()
    }

    /// The line of an entry.
    pub fn line_of(&self, axis: Option<usize>, entry: WordKind) -> Option<usize> {
        self.lines.iter().find(|line| line.axis == axis && line.entry == entry).map(|line| line.line)
    }

    /// An entry as it stands on the sheet, where it has a crew's unit.
    pub fn as_entered(&self, axis: Option<usize>, entry: WordKind) -> Option<&str> {
        self.entered
            .iter()
            .find(|entered| entered.axis == axis && entered.entry == entry)
            .map(|entered| entered.text.as_str())
    }

    /// What to call an axis: `axis 0`, or `axis 0 pan` where it has a name.
    pub fn axis_title(&self, number: usize) -> String {
        match self.axis_name(number) {
            Some(name) => format!("axis {number} {name}"),
            None => format!("axis {number}"),
        }
    }
}
