//! The report of a job or of a tour, with recorded taps of its poles.

use std::path::Path;

use polgamir::sheet::Setup;
use polgamir::AXES;

use super::export::Source;
use super::files::{self, about, FileError};
use super::{content, read_tap, refusal, rounded_of, Done};
use crate::arguments::TapOf;
use crate::report::{self, Record};

/// Writes the report; that of a refusal is a page too.
pub fn written(file: &Path, taps: &[TapOf]) -> Result<Done, FileError> {
    let content = files::read(file)?;
    let setup = content::setup_of(&content).map_err(|cause| about(file, cause))?;
    let records = taps.iter().map(|tap| record(file, &setup, tap)).collect::<Result<Vec<_>, _>>()?;
    let (title, entered) = (Source::of(file).title, content::sheet_text(&content, &setup));
    let page = match &setup {
        Setup::Job(sheet) => {
            report::written(&title, &entered, sheet, &records).map_err(|refusal| refusal::told(sheet, &refusal))
        }
        Setup::Tour(sheet) => report::written_of_tour(&title, &entered, sheet, &records)
            .map_err(|refusal| refusal::told_of_tour(sheet, &refusal)),
    };
    let done = match page {
        Ok(page) => Done::well(page),
        Err(told) => Done::refused(&told, report::refused(&title, &entered, rounded_of(&setup), &told)),
    };
    Ok(done.noting(rounded_of(&setup)))
}

/// A recorded tap with the axis of the sheet that it is for, and the seconds of a tick.
fn record(file: &Path, setup: &Setup, tap: &TapOf) -> Result<Record, FileError> {
    let seconds = match setup {
        Setup::Job(sheet) => sheet.tick_seconds(),
        Setup::Tour(sheet) => sheet.tick_seconds(),
    };
    let tick = seconds.ok_or_else(|| about(file, "expected `tick`, the seconds of a tick, for a recorded tap"))?;
    let axis = match &tap.axis {
        None => None,
        Some(name) => Some(axis_of(setup, name).ok_or_else(|| {
            about(file, format!("expected an axis of the sheet before `=` after `--tap`, found `{name}`"))
        })?),
    };
    Ok(Record { name: Source::of(&tap.tapped.record).sheet, axis, tick, tap: read_tap(&tap.tapped)? })
}

/// The axis of a sheet by its number, or by its name in whichever letters.
fn axis_of(setup: &Setup, name: &str) -> Option<usize> {
    let named = |number: usize| match setup {
        Setup::Job(sheet) => sheet.job.axes[number].as_ref().map(|_| sheet.axis_name(number)),
        Setup::Tour(sheet) => sheet.tour.axes[number].as_ref().map(|_| sheet.axis_name(number)),
    };
    let is_meant = |number: &usize| match named(*number) {
        None => false,
        Some(title) => name == number.to_string() || title.is_some_and(|title| title.eq_ignore_ascii_case(name)),
    };
    (0..AXES).find(is_meant)
}
