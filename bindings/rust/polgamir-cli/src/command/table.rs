//! An accepted job as printed text.

use std::fmt::Write;

use polgamir::sheet::Sheet;
use polgamir::{Accepted, Motion};

use super::shown::Shown;
use super::summary;
use crate::arguments::TableForm;
use crate::measure::{in_seconds, rounded, Measure};

/// The columns of each axis.
pub const COLUMNS: [&str; 3] = ["position", "velocity", "acceleration"];

/// The rows that are shown from the beginning of a long table, and as many from its end.
const SHOWN: usize = 4;

/// The rows of a table that is shown whole.
const SHORT: usize = 12;

/// The arrival and a summary, then the table: every row, or the first and the last ones.
pub fn print(sheet: &Sheet, accepted: &Accepted, form: TableForm, all: bool) -> String {
    match form {
        TableForm::Plain => plain(&Shown::whole(accepted)),
        form => {
            let (arrival, rows) = (arrival(sheet, accepted.arrival()), rows(sheet, &Shown::whole(accepted), form, all));
            format!("{arrival}\n\n{}\n{rows}", summary::of(sheet, accepted))
        }
    }
}

/// The arrival, then the rows of a part.
pub fn print_part(sheet: &Sheet, part: &Shown, form: TableForm) -> String {
    match form {
        TableForm::Plain => plain(part),
        form => format!("{}\n\n{}", arrival(sheet, part.arrival()), rows(sheet, part, form, true)),
    }
}

/// The arrival's line.
fn arrival(sheet: &Sheet, tick: u32) -> String {
    format!("arrival {tick}{}", in_seconds(tick, sheet.tick_seconds()))
}

/// The arrival and the rows as the table program prints them.
fn plain(shown: &Shown) -> String {
    format!("arrival {}\n", shown.arrival()) + &plain_rows(shown)
}

/// The rows in columns below what they are in.
pub fn rows(sheet: &Sheet, accepted: &Shown, form: TableForm, all: bool) -> String {
    match form {
        TableForm::Plain => plain_rows(accepted),
        TableForm::FineSteps => {
            "in fine steps, 1/256 unit\n\n".to_string() + &aligned(sheet, accepted, all, |_, motion| cells_of(motion))
        }
        TableForm::Units => {
            let ticks = sheet.tick_seconds().map(|tick| format!(", a tick is {} s", rounded(tick)));
            let table = aligned(sheet, accepted, all, |axis, motion| in_measure(&Measure::of(sheet, axis), motion));
            format!("in {}{}\n\n{table}", measures(sheet, accepted), ticks.unwrap_or_default())
        }
    }
}

/// The cells of a motion as they stand in the table.
fn cells_of(motion: Motion) -> [String; 3] {
    [motion.position, motion.velocity, motion.acceleration].map(|cell| cell.to_string())
}

/// The cells of a motion in the measures of its axis.
fn in_measure(measure: &Measure, motion: Motion) -> [String; 3] {
    let (numbers, decimals) = (measure.shown(motion), measure.decimals());
    std::array::from_fn(|column| format!("{:.*}", decimals[column], numbers[column]))
}

/// In what the positions are, velocities and accelerations by the tick or the
/// second: of all axes, or of each.
fn measures(sheet: &Sheet, accepted: &Shown) -> String {
    let names: Vec<(usize, [String; 3])> =
        accepted.axes().axes().map(|axis| (axis, Measure::of(sheet, axis).names())).collect();
    let in_words = |[position, velocity, acceleration]: &[String; 3]| match position.as_str() {
        "units" if velocity == "units/tick" => String::from("units"),
        _ => format!("{position}, {velocity}, {acceleration}"),
    };
    match names.iter().all(|(_, name)| *name == names[0].1) {
        true => in_words(&names[0].1),
        false => {
            let each = names.iter().map(|(axis, name)| format!("{} ({})", in_words(name), sheet.axis_title(*axis)));
            each.collect::<Vec<_>>().join("; ")
        }
    }
}

/// The rows as the table program prints them: the tick and the cells with one space between them.
fn plain_rows(accepted: &Shown) -> String {
    let mut text = String::new();
    for row in accepted.rows() {
        let cells: String = row.cells().iter().map(|cell| format!(" {cell}")).collect();
        let _ = writeln!(text, "{}{cells}", row.tick());
    }
    text
}

/// The rows in columns of even width, below the axes' titles and the columns' names; of a long
/// table the first and the last ones, unless all are asked for.
fn aligned(sheet: &Sheet, accepted: &Shown, all: bool, format: impl Fn(usize, Motion) -> [String; 3]) -> String {
    let count = accepted.rows().len();
    let hidden = if all || count <= SHORT { 0..0 } else { SHOWN..count - SHOWN };
    let shown = accepted.rows().filter(|row| !hidden.contains(&(row.tick() as usize)));
    let rows: Vec<Vec<String>> = shown
        .map(|row| {
            let tick = row.tick().to_string();
            std::iter::once(tick).chain(row.axes().flat_map(|(axis, motion)| format(axis, motion))).collect()
        })
        .collect();
    let names: Vec<&str> = std::iter::once("tick").chain(accepted.axes().axes().flat_map(|_| COLUMNS)).collect();
    let widths: Vec<usize> = names
        .iter()
        .enumerate()
        .map(|(column, name)| rows.iter().map(|row| row[column].len()).max().unwrap_or(0).max(name.len()))
        .collect();
    let mut text = titles(sheet, accepted, &widths);
    push_line(&mut text, &widths, names.into_iter());
    for (index, row) in rows.iter().enumerate() {
        if index == SHOWN && !hidden.is_empty() {
            let _ = writeln!(text, "  ..  {} rows more: --all prints them", hidden.len());
        }
        push_line(&mut text, &widths, row.iter().map(String::as_str));
    }
    text
}

/// The line of the axes' titles, each above its columns.
fn titles(sheet: &Sheet, accepted: &Shown, widths: &[usize]) -> String {
    let mut line = " ".repeat(widths[0]);
    for (axis, widths) in accepted.axes().axes().zip(widths[1..].chunks_exact(3)) {
        let width = widths.iter().sum::<usize>() + 4;
        let title = sheet.axis_title(axis);
        let _ = write!(line, "  {title:width$.width$}");
    }
    line.trim_end().to_string() + "\n"
}

/// Appends a line of cells, each to the right of its column, two spaces apart.
pub fn push_line<'c>(text: &mut String, widths: &[usize], cells: impl Iterator<Item = &'c str>) {
    for (index, (cell, width)) in cells.zip(widths).enumerate() {
        let gap = if index == 0 { "" } else { "  " };
        let _ = write!(text, "{gap}{cell:>width$}");
    }
    text.push('\n');
}
