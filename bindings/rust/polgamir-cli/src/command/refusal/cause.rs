//! What is wrong, in a sentence or two.

use polgamir::sheet::Sheet;
use polgamir::{Refusal, LATEST_ARRIVAL};

use super::{called, called_all, tick, OtherArrivals};

/// What is wrong, after `No plan:`.
pub fn sentence(sheet: &Sheet, refusal: &Refusal, arrivals: &OtherArrivals) -> String {
    let asked = tick(sheet, sheet.job.arrival.number());
    match refusal {
        Refusal::NotReachable { axes } if axes.is_empty() => {
            format!("every axis can arrive at {asked}, but it fits no window. {}", those_that_do(sheet, arrivals))
        }
        Refusal::NotReachable { axes } => {
            format!("{} cannot arrive at {asked}. {}", called_all(sheet, *axes), those_that_do(sheet, arrivals))
        }
        Refusal::NoCommonArrival { axes } if axes.is_empty() => {
            let window = if sheet.job.windows.is_some() { " and fits a window" } else { "" };
            format!("each axis can arrive, but no tick from 1 to {} suits all of them{window}.", latest(sheet))
        }
        Refusal::NoCommonArrival { axes } => {
            format!("{} can arrive at no tick from 1 to {}.", called_all(sheet, *axes), latest(sheet))
        }
        Refusal::AskedArrival => format!("the asked arrival, {asked}, is after the latest one, {}.", latest(sheet)),
        Refusal::TableTooShort { arrival } => {
            let needed = polgamir::cells_needed(sheet.job.mask().count_ones(), *arrival);
            format!("the arrival is {}, and its table needs {needed} cells.", tick(sheet, *arrival))
        }
        other => of_entries(sheet, other),
    }
}

/// What is wrong with the entries of a job.
fn of_entries(sheet: &Sheet, refusal: &Refusal) -> String {
    let axis = refusal.axis().map(|axis| called(sheet, axis)).unwrap_or_default();
    match refusal {
        Refusal::Mask => "the job has no axis.".into(),
        Refusal::Words { index } => format!("word {index} of the job is of a wrong kind, lacking or left over."),
        Refusal::LongPosition { index } => {
            format!(
                "the payload of word {index}, of kind 14, is outside -64 to 63, or its position fits a single word."
            )
        }
        Refusal::Limits { .. } => format!("a limit of {axis} is outside its range."),
        Refusal::Damping { .. } => format!("the damping of {axis} as measured is outside its range."),
        Refusal::Blend { .. } => format!("the half period or weight of {axis} is outside its range."),
        Refusal::SecondHalfPeriod { .. } => format!("the second half period of {axis} is outside its range."),
        Refusal::StartOrTarget { .. } => format!("start or target of {axis} is outside its range."),
        Refusal::Acceleration { .. } => {
            format!("the target of {axis} accelerates, and its pole has a second half period.")
        }
        Refusal::FlyingTarget { .. } => {
            format!("the fixed target of {axis} has a velocity, and a fixed target is at rest.")
        }
        Refusal::Windows { .. } => "the windows cannot be used as they stand.".into(),
        other => format!("{other}."),
    }
}

/// The latest arrival, with its seconds.
fn latest(sheet: &Sheet) -> String {
    tick(sheet, LATEST_ARRIVAL).replacen("tick ", "", 1)
}

/// Which arrivals would do in place of the asked one.
fn those_that_do(sheet: &Sheet, arrivals: &OtherArrivals) -> String {
    let asked = sheet.job.arrival.number();
    match (arrivals.least, arrivals.next) {
        (None, _) => format!("No tick from 1 to {} would do.", latest(sheet)),
        (Some(least), _) if least > asked => format!("Earliest: {}.", tick(sheet, least)),
        (Some(least), None) => format!("Earliest: {}; none after {} would do.", tick(sheet, least), tick(sheet, asked)),
        (Some(least), Some(next)) => {
            format!(
                "Earliest: {}; the next one after {}: {}.",
                tick(sheet, least),
                tick(sheet, asked),
                tick(sheet, next)
            )
        }
    }
}
