//! The set-up sheet: a job or a tour as a person writes it, one entry to a line. The
//! format's page is `docs/SHEET.md`.
//!
//! ```
//! use polgamir::sheet::Sheet;
//!
//! let sheet: Sheet = "
//! arrival 4
//!
//! axis 0 pan
//!   half period         0     # no blend
//!   weight              128   # the swing does not shrink
//!   speed limit         10
//!   acceleration limit  1
//!   start position      0
//!   start velocity      0
//!   target              still
//!   target position     1
//! ".parse()?;
//! assert_eq!(sheet.axis_name(0), Some("pan"));
//! # Ok::<(), polgamir::sheet::SheetErrors>(())
//! ```

mod amount;
mod draft;
mod entries;
mod errors;
mod fraction;
mod line;
mod lines;
mod natural;
mod notes;
mod quantity;
mod reading;
mod rounded;
mod scales;
mod spelling;
mod stops;
mod text;
mod tour;
mod worked;

use std::fmt;

use crate::damping::Damping;
use crate::job::{Arrival, Axis, Job, RestPoint, Target};
use crate::windows::Window;
use crate::words::WordKind;

pub use errors::{SheetError, SheetErrors};
pub use line::SheetLine;
use notes::Notes;
pub use rounded::Rounded;
pub use scales::Unit;
pub use tour::TourSheet;

/// What a text asks for: a job, or where it has `stop` lines a tour.
#[allow(clippy::large_enum_variant)] // One is read at a time.
#[derive(Debug, Clone, PartialEq)]
pub enum Setup {
    /// The sheet of a job.
    Job(Sheet),
    /// The sheet of a tour.
    Tour(TourSheet),
}

/// A job with what its sheet says beside it: the names of the axes, and the
/// lines that the entries stand on.
#[derive(Debug, Clone, PartialEq, Default)]
pub struct Sheet {
    /// The job that the sheet asks for.
    pub job: Job,
    notes: Notes,
}

impl Sheet {
    /// The name that the sheet gives to an axis.
    pub fn axis_name(&self, number: usize) -> Option<&str> {
        self.notes.axis_name(number)
    }

    /// The line, from 1, that an entry of an axis stands on ([`WordKind::SecondWeight`] for the
    /// damping), or with `None` that of the whole job's [`WordKind::Arrival`]. A sheet that was
    /// not read from text has no lines.
    pub fn line_of(&self, axis: Option<usize>, entry: WordKind) -> Option<usize> {
        self.notes.line_of(axis, entry)
    }

    /// An entry of an axis, or with `None` the arrival, as it stands on the sheet, where it has a
    /// crew's unit: `swings 10 in 8.4 s`.
    pub fn as_entered(&self, axis: Option<usize>, entry: WordKind) -> Option<&str> {
        self.notes.as_entered(axis, entry)
    }

    /// The line, from 1, that a window stands on.
    pub fn line_of_window(&self, index: usize) -> Option<usize> {
        self.notes.windows.get(index).copied()
    }

    /// The line, from 1, that the dwell in the windows stands on.
    pub fn line_of_dwell(&self) -> Option<usize> {
        self.notes.dwell
    }

    /// What to call an axis: `axis 0`, or `axis 0 pan` where the sheet names it.
    pub fn axis_title(&self, number: usize) -> String {
        self.notes.axis_title(number)
    }

    /// The entries that no whole number of ticks or units meets, in the order of their lines: what
    /// was entered, what is planned and by how much it is off.
    pub fn rounded(&self) -> &[Rounded] {
        &self.notes.rounded
    }

    /// The seconds of a tick, where the sheet says them: for what is shown, never for what is
    /// planned.
    pub fn tick_seconds(&self) -> Option<f64> {
        self.notes.scales.tick_seconds()
    }

    /// What a unit of an axis stands for, where the sheet says it: for what is
    /// shown, never for what is planned.
    pub fn unit_of(&self, number: usize) -> Option<&Unit> {
        self.notes.scales.unit_of(number)
    }
}

/// The sheet of a job, without names.
impl From<Job> for Sheet {
    fn from(job: Job) -> Sheet {
        Sheet { job, ..Sheet::default() }
    }
}

/// How a sheet says what a target is.
#[derive(Debug, Clone, Copy, PartialEq, Eq)]
enum TargetKind {
    /// Fixed, and at rest.
    Still,
    /// Fixed, passed at a velocity that goes on uniformly.
    Flying,
    /// Moving by itself.
    Moving,
}

impl TargetKind {
    /// Every kind.
    const ALL: [TargetKind; 3] = [TargetKind::Still, TargetKind::Flying, TargetKind::Moving];

    /// The word on the sheet.
    fn name(self) -> &'static str {
        match self {
            TargetKind::Still => "still",
            TargetKind::Flying => "flying",
            TargetKind::Moving => "moving",
        }
    }

    /// The kind of a target.
    fn of(target: &Target) -> TargetKind {
        match target {
            Target::Fixed(RestPoint { velocity: 0, .. }) => TargetKind::Still,
            Target::Fixed(_) => TargetKind::Flying,
            Target::Moving(_) => TargetKind::Moving,
        }
    }

    /// Whether a target of this kind has an entry on the sheet.
    fn has(self, entry: WordKind) -> bool {
        match entry {
            WordKind::TargetVelocity => self != TargetKind::Still,
            WordKind::TargetAcceleration | WordKind::TargetTick => self == TargetKind::Moving,
            _ => true,
        }
    }
}

/// The entries of an axis that are numbers, in the order in which a sheet is written.
const ENTRIES: [WordKind; 11] = [
    WordKind::HalfPeriod,
    WordKind::SecondWeight,
    WordKind::SecondHalfPeriod,
    WordKind::SpeedLimit,
    WordKind::AccelerationLimit,
    WordKind::StartPosition,
    WordKind::StartVelocity,
    WordKind::TargetPosition,
    WordKind::TargetVelocity,
    WordKind::TargetAcceleration,
    WordKind::TargetTick,
];

/// What stands beside an entry on a written sheet.
fn remark(entry: WordKind) -> &'static str {
    match entry {
        WordKind::HalfPeriod => "ticks, 0 to 256; 0: no blend",
        WordKind::SecondHalfPeriod => "ticks, 1 to 256; the pole swings at two rates",
        WordKind::SpeedLimit => "units per tick, 1 to 1048576",
        WordKind::AccelerationLimit => "units per tick², 1 to 65536",
        WordKind::StartPosition | WordKind::TargetPosition => "units",
        WordKind::StartVelocity | WordKind::TargetVelocity => "units per tick",
        WordKind::TargetAcceleration => "units per tick²",
        _ => "the tick at which position and velocity hold",
    }
}

/// Writes the sheet in full, in a form that reads back as the same sheet, but for windows after the
/// 32nd.
impl fmt::Display for Sheet {
    fn fmt(&self, f: &mut fmt::Formatter<'_>) -> fmt::Result {
        match self.job.arrival {
            Arrival::Earliest => writeln!(f, "arrival earliest")?,
            Arrival::At(tick) => writeln!(f, "arrival {tick}")?,
        }
        self.notes.scales.write_whole(f)?;
        if let Some(windows) = &self.job.windows {
            writeln!(f, "dwell {}", windows.dwell())?;
            for Window { opening, closing } in windows.list() {
                writeln!(f, "window {opening} {closing}")?;
            }
        }
        for (number, axis) in self.job.entered() {
            writeln!(f, "\n{}", self.axis_title(number))?;
            self.notes.scales.write_of_axis(f, number)?;
            write_axis(f, axis)?;
        }
        Ok(())
    }
}

/// Writes the entries of an axis.
fn write_axis(f: &mut fmt::Formatter<'_>, axis: &Axis) -> fmt::Result {
    let kind = TargetKind::of(&axis.target);
    for entry in ENTRIES.into_iter().filter(|&entry| kind.has(entry)) {
        if entry == WordKind::TargetPosition {
            writeln!(f, "  {:19} {}", "target", kind.name())?;
        }
        if entry == WordKind::SecondWeight {
            write_damping(f, axis.damping)?;
            continue;
        }
        for (_, value) in axis.entries().filter(|&(word, _)| word == entry) {
            write_entry(f, entry, value)?;
        }
    }
    Ok(())
}

/// Writes the damping with its remark. A ratio or a peak that is not finite has no line that reads
/// back.
fn write_damping(f: &mut fmt::Formatter<'_>, damping: Damping) -> fmt::Result {
    let remark = match damping {
        Damping::Weight(_) => "1 to 128; 128: the swing does not shrink",
        Damping::Ratio(_) => "each swing by the one before, above 0 and at most 1",
        Damping::Peaks { .. } => "two peaks that follow one another, both counted positive",
    };
    let line = damping.to_string();
    let (name, value) = line.split_once(' ').unwrap_or((&line, ""));
    writeln!(f, "  {name:19} {value:<11} # {remark}")
}

/// Writes an entry with its remark.
fn write_entry(f: &mut fmt::Formatter<'_>, entry: WordKind, value: i64) -> fmt::Result {
    writeln!(f, "  {:19} {value:<11} # {}", entry.name(), remark(entry))
}
