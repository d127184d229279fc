//! Comma-separated values: a line that begins with `#` and says what made them, a
//! heading, then a line for each row.

use std::fmt::Write;

use polgamir::sheet::Sheet;
use polgamir::Row;

use super::{numbers, PlannedTour, Quantity, Source};
use crate::command::shown::Shown;
use crate::command::table::COLUMNS;
use crate::measure::Measure;

/// A job: a line for each tick. Where a tick's seconds are said, a column has the time.
pub fn of_job(source: &Source, sheet: &Sheet, accepted: &Shown, quantity: Quantity) -> String {
    let time = sheet.tick_seconds().filter(|_| quantity == Quantity::Units);
    let axes = accepted.axes().axes().map(|axis| (sheet.axis_title(axis), Measure::of(sheet, axis)));
    let axes: Vec<(String, Measure)> = axes.collect();
    let ticks = accepted.ticks_of_part().map(|ticks| format!("rows {} to {}, ", ticks.start(), ticks.end()));
    let (arrival, ticks) = (accepted.arrival(), ticks.unwrap_or_default());
    let mut text = format!("# {}: arrival {arrival}, {ticks}{}\n", source.made(), in_what(quantity));
    text += &heading(&["tick"], time, &axes, quantity);
    for row in accepted.rows() {
        push_line(&mut text, &[row.tick()], time.map(|tick| (row.tick(), tick)), &row, &axes, quantity);
    }
    text
}

/// A tour: a line for each row of each leg, with the stop that the leg goes to, the
/// tick of the tour and the row's own.
pub fn of_tour(source: &Source, tour: &PlannedTour, quantity: Quantity) -> String {
    let time = tour.sheet.tick_seconds().filter(|_| quantity == Quantity::Units);
    let axes: Vec<(String, Measure)> =
        tour.axes().map(|axis| (tour.sheet.axis_title(axis), tour.measure(axis))).collect();
    let (stops, total) = (tour.legs.len(), tour.schedule.total);
    let mut text = format!("# {}: {stops} stops, total {total}, {}\n", source.made(), in_what(quantity));
    text += &heading(&["stop", "row", "tick"], time, &axes, quantity);
    for leg in &tour.legs {
        for row in leg.plan.rows() {
            let tick = leg.departure + row.tick();
            let places = [leg.stop as u32, row.tick(), tick];
            push_line(&mut text, &places, time.map(|seconds| (tick, seconds)), &row, &axes, quantity);
        }
    }
    text
}

/// What the numbers are in.
fn in_what(quantity: Quantity) -> &'static str {
    match quantity {
        Quantity::FineSteps => "in fine steps of 1/256 unit",
        Quantity::Units => "in what the heading says",
    }
}

/// The names of the columns.
fn heading(first: &[&str], time: Option<f64>, axes: &[(String, Measure)], quantity: Quantity) -> String {
    let mut heading: Vec<String> = first.iter().map(|name| name.to_string()).collect();
    heading.extend(time.map(|_| "time (s)".into()));
    for (title, measure) in axes {
        for (column, name) in COLUMNS.iter().zip(measure.names()) {
            let measure = if quantity == Quantity::Units { format!(" ({name})") } else { String::new() };
            heading.push(format!("{title} {column}{measure}"));
        }
    }
    let fields: Vec<String> = heading.iter().map(|name| field(name)).collect();
    fields.join(",") + "\n"
}

/// Appends the line of a row: its places, the time where it is told (a tick and the
/// seconds of one), and its numbers.
fn push_line(
    text: &mut String,
    places: &[u32],
    time: Option<(u32, f64)>,
    row: &Row,
    axes: &[(String, Measure)],
    quantity: Quantity,
) {
    let places: Vec<String> = places.iter().map(u32::to_string).collect();
    text.push_str(&places.join(","));
    if let Some((tick, seconds)) = time {
        let _ = write!(text, ",{}", f64::from(tick) * seconds);
    }
    for ((_, motion), (_, measure)) in row.axes().zip(axes) {
        let _ = write!(text, ",{}", numbers(motion, measure, quantity).join(","));
    }
    text.push('\n');
}

/// A field of comma-separated values, between quotes where it has to be.
fn field(text: &str) -> String {
    match text.contains([',', '"', '\n', '\r']) {
        true => format!("\"{}\"", text.replace('"', "\"\"")),
        false => text.into(),
    }
}
