//! A plan for other programs: comma-separated values, JSON, or the source of C arrays. Each says
//! which version made it, from which sheet.

mod c;
mod csv;
mod json;
mod refused;

use std::path::Path;

use polgamir::sheet::{Sheet, TourSheet};
use polgamir::{Motion, Plan, Schedule, TourRefusal};

use super::files;
use super::shown::Shown;
use crate::measure::Measure;

pub use refused::{refused_job, refused_tour};

/// In what the numbers of an export are.
#[derive(Debug, Clone, Copy, PartialEq, Eq)]
pub enum Quantity {
    /// The table's own cells: whole fine steps.
    FineSteps,
    /// Units, or what the sheet says that a unit and a tick stand for.
    Units,
}

/// The form of an export.
#[derive(Debug, Clone, Copy, PartialEq, Eq)]
pub enum Export {
    /// Comma-separated values.
    Csv(Quantity),
    /// JSON.
    Json(Quantity),
    /// The source of C arrays.
    CArray,
}

/// The version of the command.
pub const VERSION: &str = env!("CARGO_PKG_VERSION");

/// What an export is made from.
pub struct Source {
    /// The sheet's file without its folder, or that it was standard input.
    pub sheet: String,
    /// Its name without an ending, or `plan`: what is named after it.
    pub title: String,
}

impl Source {
    /// The source of a file.
    pub fn of(file: &Path) -> Source {
        let text = |part: Option<&std::ffi::OsStr>| part.map(|part| part.to_string_lossy().into_owned());
        match files::is_standard(file) {
            true => Source { sheet: "standard input".into(), title: "plan".into() },
            false => Source {
                sheet: text(file.file_name()).unwrap_or_else(|| file.display().to_string()),
                title: text(file.file_stem()).unwrap_or_else(|| "plan".into()),
            },
        }
    }

    /// What made the export, and from what: `polgamir 0.2.0 from case-c.sheet`, on one line.
    fn made(&self) -> String {
        let sheet: String = self.sheet.chars().filter(|character| !character.is_control()).collect();
        format!("polgamir {VERSION} from {sheet}")
    }
}

/// An accepted job, or a part of its rows, in the form of an export.
pub fn written(source: &Source, sheet: &Sheet, accepted: &Shown, export: Export) -> String {
    match export {
        Export::Csv(quantity) => csv::of_job(source, sheet, accepted, quantity),
        Export::Json(quantity) => json::of_job(source, sheet, accepted, quantity),
        Export::CArray => c::of_job(source, sheet, accepted),
    }
}

/// An accepted tour in the form of an export.
pub fn tour_written(source: &Source, sheet: &TourSheet, export: Export) -> Result<String, TourRefusal> {
    let tour = PlannedTour::of(sheet)?;
    Ok(match export {
        Export::Csv(quantity) => csv::of_tour(source, &tour, quantity),
        Export::Json(quantity) => json::of_tour(source, &tour, quantity),
        Export::CArray => c::of_tour(source, &tour),
    })
}

/// A tour with the plans of its legs.
pub struct PlannedTour<'s> {
    /// Its sheet.
    pub sheet: &'s TourSheet,
    /// Its arrivals and its total.
    pub schedule: Schedule,
    /// Its legs.
    pub legs: Vec<Leg>,
}

/// A leg of a tour.
pub struct Leg {
    /// The stop that it goes to, from 0.
    pub stop: usize,
    /// The tick of the tour at which it starts.
    pub departure: u32,
    /// The tick of the tour at which it arrives.
    pub arrival: u32,
    /// The ticks that the head then stays.
    pub dwell: u32,
    /// Its table.
    pub plan: Plan,
}

impl<'s> PlannedTour<'s> {
    /// Plans a tour and each of its legs.
    pub fn of(sheet: &'s TourSheet) -> Result<PlannedTour<'s>, TourRefusal> {
        let schedule = sheet.tour.schedule(&sheet.stops)?;
        let mut departure = 0;
        let mut legs = Vec::new();
        for (stop, (&arrival, entered)) in schedule.arrivals.iter().zip(&sheet.stops).enumerate() {
            let job = sheet.tour.leg(&sheet.stops, stop).unwrap_or_default();
            let plan = job.plan().map_err(|refusal| TourRefusal::Leg { stop, refusal })?;
            legs.push(Leg { stop, departure, arrival, dwell: entered.dwell, plan });
            departure = arrival + entered.dwell;
        }
        Ok(PlannedTour { sheet, schedule, legs })
    }

    /// The numbers of its axes.
    fn axes(&self) -> impl Iterator<Item = usize> + '_ {
        self.sheet.tour.entered().map(|(number, _)| number)
    }

    /// The measures of an axis.
    fn measure(&self, axis: usize) -> Measure {
        Measure::of_tour(self.sheet, axis)
    }
}

/// The three numbers of a motion as text. Units are printed so that they read back as the same
/// number.
fn numbers(motion: Motion, measure: &Measure, quantity: Quantity) -> [String; 3] {
    match quantity {
        Quantity::FineSteps => [motion.position, motion.velocity, motion.acceleration].map(|cell| cell.to_string()),
        Quantity::Units => measure.shown(motion).map(|number| number.to_string()),
    }
}
