//! A tour as printed text.

use std::fmt::Write;

use polgamir::sheet::TourSheet;
use polgamir::{Schedule, TourRefusal};

use super::export::{self, Source};
use super::shown::Shown;
use super::{refusal, table, Done};
use crate::arguments::{TableForm, TourForm};
use crate::measure::{in_seconds, rounded, Measure};

/// Plans a tour and prints its arrivals, and the tables of its legs where they
/// are asked for, or its refusal.
pub fn planned(source: &Source, sheet: &TourSheet, form: TourForm) -> Done {
    let text = match form {
        TourForm::Table { form, tables } => text_of(sheet, form, tables),
        TourForm::Export(export) => export::tour_written(source, sheet, export),
    };
    let refusal = match text {
        Ok(text) => return Done::well(text),
        Err(refusal) => refusal,
    };
    let told = refusal::told_of_tour(sheet, &refusal);
    match form {
        TourForm::Table { form: TableForm::Plain, .. } => Done::plainly_refused(&told),
        TourForm::Table { .. } => Done::refused_in_words(&told),
        TourForm::Export(export) => Done::refused(&told, export::refused_tour(source, sheet, &refusal, export)),
    }
}

/// The text of an accepted tour.
fn text_of(sheet: &TourSheet, form: TableForm, tables: bool) -> Result<String, TourRefusal> {
    let schedule = sheet.tour.schedule(&sheet.stops)?;
    let mut text = match form {
        TableForm::Plain => plain(&schedule),
        form => aligned(sheet, &schedule, form == TableForm::Units),
    };
    if tables {
        for stop in 0..sheet.stops.len() {
            text += &leg(sheet, &schedule, stop, form)?;
        }
    }
    Ok(text)
}

/// The total, then the number and the arrival of each stop.
fn plain(schedule: &Schedule) -> String {
    let mut text = format!("total {}\n", schedule.total);
    for (stop, arrival) in schedule.arrivals.iter().enumerate() {
        let _ = writeln!(text, "{stop} {arrival}");
    }
    text
}

/// The total, then the stops in columns of even width: in ticks and units, or in what the
/// sheet says that they stand for.
fn aligned(sheet: &TourSheet, schedule: &Schedule, in_measures: bool) -> String {
    let seconds = sheet.tick_seconds().filter(|_| in_measures);
    let time = |ticks: u32| seconds.map_or(ticks.to_string(), |tick| rounded(f64::from(ticks) * tick));
    let by_time = |name: &str| if seconds.is_some() { format!("{name}, s") } else { name.into() };
    let measures: Vec<(usize, Measure)> =
        sheet.tour.entered().map(|(number, _)| (number, Measure::of_tour(sheet, number))).collect();
    let titles = measures.iter().map(|(number, measure)| match in_measures {
        true => format!("{}, {}", sheet.axis_title(*number), measure.names()[0]),
        false => sheet.axis_title(*number),
    });
    let times = ["arrival", "dwell", "departure"].map(by_time);
    let mut lines: Vec<Vec<String>> = vec![std::iter::once("stop".into()).chain(times).chain(titles).collect()];
    for (index, (stop, &arrival)) in sheet.stops.iter().zip(&schedule.arrivals).enumerate() {
        let times = [arrival, stop.dwell, arrival + stop.dwell].map(time);
        let positions = measures.iter().map(|(number, measure)| match in_measures {
            true => rounded(measure.position(stop.positions[*number] as f64)),
            false => stop.positions[*number].to_string(),
        });
        lines.push(std::iter::once(index.to_string()).chain(times).chain(positions).collect());
    }
    let width = |column: usize| lines.iter().map(|line| line[column].chars().count()).max().unwrap_or(0);
    let widths: Vec<usize> = (0..lines[0].len()).map(width).collect();
    let mut text = format!("total {}{}\n\n", schedule.total, in_seconds(schedule.total, sheet.tick_seconds()));
    for line in &lines {
        table::push_line(&mut text, &widths, line.iter().map(String::as_str));
    }
    text
}

/// The table of the leg to a stop, below a line that says which it is.
fn leg(sheet: &TourSheet, schedule: &Schedule, stop: usize, form: TableForm) -> Result<String, TourRefusal> {
    let departure = match stop.checked_sub(1) {
        None => 0,
        Some(before) => schedule.arrivals[before] + sheet.stops[before].dwell,
    };
    let leg = sheet.leg(stop).unwrap_or_default();
    let plan = leg.job.plan().map_err(|refusal| TourRefusal::Leg { stop, refusal })?;
    let table = table::rows(&leg, &Shown::whole(&plan.accepted()), form, true);
    let arrival = plan.arrival();
    Ok(match form {
        TableForm::Plain => format!("arrival {arrival}\n{table}"),
        _ => {
            let seconds = in_seconds(arrival, sheet.tick_seconds());
            format!("\nleg to stop {stop}, from tick {departure} of the tour\narrival {arrival}{seconds}\n{table}")
        }
    })
}
