//! The source of C arrays, a row to a line. A table lies in memory as the library writes it.

use std::fmt::Write;

use polgamir::sheet::Sheet;
use polgamir::Motion;

use super::{PlannedTour, Source};
use crate::command::shown::Shown;

/// A job: its table, and the numbers that a program needs beside it.
pub fn of_job(source: &Source, sheet: &Sheet, accepted: &Shown) -> String {
    let name = name(&source.title);
    let capitals = name.to_ascii_uppercase();
    let (arrival, mask) = (accepted.arrival(), accepted.axes());
    let axes: Vec<String> = mask.axes().map(|axis| sheet.axis_title(axis)).collect();
    format!(
        "/*\n * {}: rows 0 to {arrival}, each with {}, for each its position, velocity and acceleration\n \
         * in fine steps, 1/256 unit, per tick and per tick squared. It lies in memory \
         as polgamir_plan_job writes it.\n \
         * Made by {}.\n */\n\
         #include <stdint.h>\n\n#define {capitals}_ARRIVAL {arrival}\n#define {capitals}_AXES {}\n\
         #define {capitals}_MASK {}\n\n\
         static const int64_t {name}_table[{capitals}_ARRIVAL + 1][{capitals}_AXES][3] = {{\n{}}};\n",
        comment(&source.title),
        comment(&axes.join(", ")),
        comment(&source.made()),
        axes.len(),
        mask.0,
        rows(accepted)
    )
}

/// A tour: a table for each leg, and a list of the legs with their times.
pub fn of_tour(source: &Source, tour: &PlannedTour) -> String {
    let name = name(&source.title);
    let capitals = name.to_ascii_uppercase();
    let axes: Vec<String> = tour.axes().map(|axis| tour.sheet.axis_title(axis)).collect();
    let mut text = format!(
        "/*\n * {}: a tour of {} stops. The table of each leg has a row for each tick, each with {},\n \
         * for each its position, velocity and acceleration in fine steps, 1/256 unit, per tick \
         and per tick squared.\n \
         * From its arrival the head stays for the dwell. Ticks of the list count from the tour's start.\n \
         * Made by {}.\n */\n\
         #include <stdint.h>\n\n#define {capitals}_STOPS {}\n#define {capitals}_TOTAL {}\n#define {capitals}_AXES {}\n\
         #define {capitals}_MASK {}\n",
        comment(&source.title),
        tour.legs.len(),
        comment(&axes.join(", ")),
        comment(&source.made()),
        tour.legs.len(),
        tour.schedule.total,
        axes.len(),
        tour.sheet.tour.mask()
    );
    let mut list = String::new();
    for leg in &tour.legs {
        let (stop, last) = (leg.stop, leg.plan.arrival());
        let _ = write!(
            text,
            "\nstatic const int64_t {name}_leg{stop}[{last} + 1][{capitals}_AXES][3] = {{\n{}}};\n",
            rows(&Shown::whole(&leg.plan.accepted()))
        );
        let _ = writeln!(list, "    {{{}, {}, {}, {last}, {name}_leg{stop}}},", leg.departure, leg.arrival, leg.dwell);
    }
    text + &format!(
        "\nstatic const struct {{\n    uint32_t departure, arrival, dwell; /* ticks of the tour */\n    \
         uint32_t last;                      /* the last row of the table */\n    \
         const int64_t (*table)[{capitals}_AXES][3];\n\
         }} {name}_legs[{capitals}_STOPS] = {{\n{list}}};\n"
    )
}

/// The rows of a table, each on a line.
fn rows(accepted: &Shown) -> String {
    let mut text = String::new();
    for row in accepted.rows() {
        let motions = row.axes().map(|(_, Motion { position, velocity, acceleration })| {
            format!("{{{position}, {velocity}, {acceleration}}}")
        });
        let motions: Vec<String> = motions.collect();
        let _ = writeln!(text, "    {{{}}},", motions.join(", "));
    }
    text
}

/// A text that ends no comment.
pub fn comment(text: &str) -> String {
    text.chars().filter(|character| !character.is_control()).collect::<String>().replace("*/", "* /")
}

/// A title as the beginning of names of C.
fn name(title: &str) -> String {
    let letter = |character: char| if character.is_ascii_alphanumeric() { character } else { '_' };
    let name: String = title.chars().map(letter).collect();
    match name.starts_with(|first: char| first.is_ascii_alphabetic()) {
        true => name,
        false => format!("job_{name}"),
    }
}
