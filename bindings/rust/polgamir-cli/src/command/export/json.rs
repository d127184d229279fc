//! JSON: one object, with the version and the sheet first.

use std::fmt::Write;

use polgamir::sheet::Sheet;
use polgamir::{in_units, FINE_STEPS};

use super::{numbers, Leg, PlannedTour, Quantity, Source, VERSION};
use crate::command::shown::Shown;
use crate::command::table::COLUMNS;
use crate::measure::Measure;

/// A job: the arrival, the first row of a part, what the numbers are in, and for each axis its
/// numbers from tick 0 to arrival, or those of the part.
pub fn of_job(source: &Source, sheet: &Sheet, accepted: &Shown, quantity: Quantity) -> String {
    let mut text = begun(source) + &format!("  \"arrival\": {},\n", accepted.arrival());
    if let Some(ticks) = accepted.ticks_of_part() {
        text += &format!("  \"first_row\": {},\n", ticks.start());
    }
    text += &in_what(quantity, sheet.tick_seconds());
    let axes: Vec<String> = accepted
        .axes()
        .axes()
        .map(|axis| {
            let head = axis_head(axis, sheet.axis_name(axis), &Measure::of(sheet, axis), quantity);
            of_axis("    ", &head, accepted, axis, &Measure::of(sheet, axis), quantity)
        })
        .collect();
    text + "  \"axes\": [\n" + &axes.join(",\n") + "\n  ]\n}\n"
}

/// A tour: the total, the axes, and for each stop its times, its positions in units,
/// and the table of the leg to it.
pub fn of_tour(source: &Source, tour: &PlannedTour, quantity: Quantity) -> String {
    let mut text = begun(source) + &format!("  \"total\": {},\n", tour.schedule.total);
    text += &in_what(quantity, tour.sheet.tick_seconds());
    let heads: Vec<String> = tour
        .axes()
        .map(|axis| {
            let head = axis_head(axis, tour.sheet.axis_name(axis), &tour.measure(axis), quantity);
            format!("    {{{}}}", head.join(", "))
        })
        .collect();
    text += &format!("  \"axes\": [\n{}\n  ],\n", heads.join(",\n"));
    let legs: Vec<String> = tour.legs.iter().map(|leg| of_leg(tour, leg, quantity)).collect();
    text + "  \"legs\": [\n" + &legs.join(",\n") + "\n  ]\n}\n"
}

/// A leg of a tour.
fn of_leg(tour: &PlannedTour, leg: &Leg, quantity: Quantity) -> String {
    let Leg { stop, departure, arrival, dwell, plan } = leg;
    let shown = Shown::whole(&plan.accepted());
    let axes: Vec<String> = tour
        .axes()
        .map(|axis| of_axis("        ", &[format!("\"axis\": {axis}")], &shown, axis, &tour.measure(axis), quantity))
        .collect();
    format!(
        "    {{\n      \"stop\": {stop},\n      \"departure\": {departure},\n      \"arrival\": {arrival},\n      \
         \"dwell\": {dwell},\n      \"axes\": [\n{}\n      ]\n    }}",
        axes.join(",\n")
    )
}

/// The beginning of an object: the version and the sheet.
pub fn begun(source: &Source) -> String {
    format!("{{\n  \"polgamir\": {},\n  \"sheet\": {},\n", text(VERSION), text(&source.sheet))
}

/// What the numbers are in.
fn in_what(quantity: Quantity, tick: Option<f64>) -> String {
    match (quantity, tick) {
        (Quantity::FineSteps, _) => format!("  \"fine_steps_of_a_unit\": {FINE_STEPS},\n"),
        (Quantity::Units, Some(seconds)) => format!("  \"seconds_of_a_tick\": {seconds},\n"),
        (Quantity::Units, None) => String::new(),
    }
}

/// An axis's number, its name where it has one, and the names of its measures where numbers are in
/// these.
fn axis_head(axis: usize, name: Option<&str>, measure: &Measure, quantity: Quantity) -> Vec<String> {
    let mut head = vec![format!("\"axis\": {axis}")];
    head.extend(name.map(|name| format!("\"name\": {}", text(name))));
    if quantity == Quantity::Units {
        head.push(format!("\"measures\": [{}]", measure.names().map(|name| text(&name)).join(", ")));
    }
    head
}

/// An axis of a table: what it begins with, its least and greatest position where all rows are
/// shown, and its numbers as lists.
fn of_axis(
    indent: &str,
    head: &[String],
    accepted: &Shown,
    axis: usize,
    measure: &Measure,
    quantity: Quantity,
) -> String {
    let mut members = head.to_vec();
    if let Some(range) = accepted.position_range(axis) {
        let shown = |cell: i64| match quantity {
            Quantity::FineSteps => cell.to_string(),
            Quantity::Units => measure.position(in_units(cell)).to_string(),
        };
        members.push(format!("\"least_position\": {}", shown(*range.start())));
        members.push(format!("\"greatest_position\": {}", shown(*range.end())));
    }
    let rows = accepted.rows().filter_map(|row| row.axis(axis));
    let rows: Vec<[String; 3]> = rows.map(|motion| numbers(motion, measure, quantity)).collect();
    members.extend((0..3).map(|column| {
        let list: Vec<&str> = rows.iter().map(|row| row[column].as_str()).collect();
        format!("\"{}\": [{}]", COLUMNS[column], list.join(", "))
    }));
    format!("{indent}{{\n{indent}  {}\n{indent}}}", members.join(&format!(",\n{indent}  ")))
}

/// A text of JSON.
pub fn text(text: &str) -> String {
    let mut quoted = String::from("\"");
    for character in text.chars() {
        match character {
            '"' | '\\' => quoted.extend(['\\', character]),
            control if control.is_control() => {
                let _ = write!(quoted, "\\u{:04x}", u32::from(control));
            }
            other => quoted.push(other),
        }
    }
    quoted + "\""
}
