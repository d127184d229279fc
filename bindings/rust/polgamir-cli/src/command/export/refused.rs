//! A refusal in the form of an export: in JSON an object, in C a line that no compiler takes, else
//! the line of the table program.

use polgamir::sheet::{Sheet, TourSheet};
use polgamir::{Limit, Refusal, TourRefusal};

use super::{c, json, Export, Source};
use crate::command::refusal::{raises_of_axes, told, told_of_tour, OtherArrivals, RaiseOfAxis, Told};

/// The refusal of a job.
pub fn refused_job(source: &Source, sheet: &Sheet, refusal: &Refusal, export: Export) -> String {
    let told = told(sheet, refusal);
    match export {
        Export::Json(_) => {
            let numbers = [refusal.number().into(), refusal.place(), refusal.mask().0.into(), refusal.arrival().into()];
            in_json(source, numbers, &told) + &other_ways(sheet, refusal) + "\n}\n"
        }
        other => in_line(&told, other),
    }
}

/// The refusal of a tour: of a leg's, what would do is that of its job.
pub fn refused_tour(source: &Source, sheet: &TourSheet, refusal: &TourRefusal, export: Export) -> String {
    let told = told_of_tour(sheet, refusal);
    match export {
        Export::Json(_) => {
            let numbers = [refusal.number().into(), refusal.place() as u64, refusal.mask().0.into(), 0];
            in_json(source, numbers, &told) + "\n}\n"
        }
        other => in_line(&told, other),
    }
}

/// The line of a refusal: for a C compiler an error.
fn in_line(told: &Told, export: Export) -> String {
    match export {
        Export::CArray => {
            let words = c::comment(&told.in_short()).replace(['"', '\\'], "'");
            format!("#error \"{}: {words}\"\n", told.printed_line)
        }
        _ => told.printed_line.clone() + "\n",
    }
}

/// The beginning of an object: the four numbers of the refusal, and its words.
fn in_json(source: &Source, [number, place, axes, arrival]: [u64; 4], told: &Told) -> String {
    let words = json::text(&told.in_short());
    format!(
        "{}  \"refused\": {number},\n  \"place\": {place},\n  \"axes\": {axes},\n  \"arrival\": \
         {arrival},\n  \"text\": {words}",
        json::begun(source)
    )
}

/// What would do in place of a refused arrival: the least arrival, the next one after the
/// asked, and raises of each axis.
fn other_ways(sheet: &Sheet, refusal: &Refusal) -> String {
    if !matches!(refusal, Refusal::NotReachable { .. }) {
        return String::new();
    }
    let OtherArrivals { least, next } = OtherArrivals::of(sheet, refusal);
    let or_null = |tick: Option<u32>| tick.map_or("null".into(), |tick| tick.to_string());
    let axes = raises_of_axes(sheet, refusal).into_iter().map(|(number, raises)| {
        let name = sheet.axis_name(number).map(|name| format!(", \"name\": {}", json::text(name))).unwrap_or_default();
        let raises: Vec<String> = raises.iter().map(raise).collect();
        format!("\n    {{\"axis\": {number}{name}, \"raises\": [{}]}}", raises.join(", "))
    });
    let axes: Vec<String> = axes.collect();
    let end = if axes.is_empty() { "" } else { "\n  " };
    format!(
        ",\n  \"least_arrival\": {},\n  \"next_arrival\": {},\n  \"raises\": [{}{end}]",
        or_null(least),
        or_null(next),
        axes.join(",")
    )
}

/// A raise: the limit's name, by how much and to what.
fn raise(RaiseOfAxis { raise, to }: &RaiseOfAxis) -> String {
    let limit = match raise.limit {
        Limit::Acceleration => "acceleration_limit",
        Limit::Speed => "speed_limit",
    };
    format!("{{\"limit\": \"{limit}\", \"by\": {}, \"to\": {to}}}", raise.by)
}
