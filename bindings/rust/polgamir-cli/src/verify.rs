//! Whether a table is the table of a job: planned anew and compared cell for cell, and checked
//! as a buyer can without a planner.

mod big;
mod certificate;
mod checks;
mod json;
mod reading;
mod sha256;
mod swings;

use std::path::{Path, PathBuf};

use polgamir::sheet::Sheet;
use polgamir::Plan;

use crate::command::files::{self, about, FileError};
use crate::command::table::COLUMNS;
use crate::command::{content, refusal, Done};
pub use certificate::{certified, verified as verified_certificate};
use checks::Check;
use reading::{Fault, Read};

/// No cell of any table is larger in size.
const LARGEST_CELL: u64 = 1 << 52;

/// Where the rows of the files stand in the table.
#[derive(Debug, Clone, Copy, PartialEq, Eq, Default)]
pub struct Standing {
    /// The arrival's row first, row 0 last.
    pub backwards: bool,
    /// The tick of the first row, where the files are a part of the table and do not say ticks.
    pub first: Option<u32>,
}

/// What is wrong with the rows, or how many of the table's rows they are.
enum Compared {
    /// Every row of the table, in order of their ticks.
    Whole(Vec<Vec<i64>>),
    /// Some rows that follow one another.
    Part { from: u32, to: u32 },
    /// Another table: what differs first, and the rows where all are there.
    Other(String, Option<Vec<Vec<i64>>>),
}

/// Holds the rows of some files, one after the other, to the table of a job.
pub fn verified(job: &Path, tables: &[PathBuf], standing: Standing) -> Result<Done, FileError> {
    let sheet = content::job_of(&files::read(job)?).map_err(|cause| about(job, cause))?;
    let axes: Vec<usize> = sheet.job.entered().map(|(number, _)| number).collect();
    let mut rows = Vec::new();
    for table in tables {
        let content = files::read(table)?;
        match reading::rows(&content, &axes) {
            Ok(more) => rows.extend(more),
            Err(Fault::Unreadable(cause)) => return Err(about(table, cause)),
            Err(Fault::OtherAxes(cause)) => {
                return Ok(Done::differs(format!("{} is NOT the table of this job: {cause}.\n", table.display())));
            }
        }
    }
    let names: Vec<String> = tables.iter().map(|table| table.display().to_string()).collect();
    let names = names.join(", ");
    let plan = match sheet.job.plan() {
        Ok(plan) => plan,
        Err(refused) => {
            let told = refusal::told(&sheet, &refused).text();
            return Ok(Done::differs(format!("{names} is NOT the table of this job, which has none.\n{told}")));
        }
    };
    Ok(match compared(&sheet, &plan, &rows, standing) {
        Compared::Whole(rows) => {
            let count = plan.cells().len();
            let arrival = plan.arrival();
            let head = format!(
                "{names} is the table of this job: rows 0 to {arrival}, each of its {count} cells as planned anew.\n"
            );
            told(head, true, &checks_of(&sheet, &rows))
        }
        Compared::Part { from, to } => {
            let arrival = plan.arrival();
            Done::well(format!(
                "{names} is rows {from} to {to} of this job's table of rows 0 to {arrival}, each cell \
                 as planned anew.\n"
            ))
        }
        Compared::Other(difference, rows) => {
            let head = format!("{names} is NOT the table of this job: {difference}.\n");
            told(head, false, &rows.map_or(Vec::new(), |rows| checks_of(&sheet, &rows)))
        }
    })
}

/// The checks of a table that may hold any numbers.
fn checks_of(sheet: &Sheet, rows: &[Vec<i64>]) -> Vec<Check> {
    match rows.iter().flatten().all(|cell| cell.unsigned_abs() <= LARGEST_CELL) {
        true => checks::of_table(sheet, rows),
        false => vec![Check { line: "a cell is past every table's range".into(), holds: false }],
    }
}

/// A verdict with its checks below it.
fn told(head: String, same: bool, checks: &[Check]) -> Done {
    let lines =
        checks.iter().map(|check| format!("  {}  {}\n", if check.holds { "ok   " } else { "WRONG" }, check.line));
    let text = head + &lines.collect::<String>();
    match same && checks.iter().all(|check| check.holds) {
        true => Done::well(text),
        false => Done::differs(text),
    }
}

/// Holds rows to a plan.
fn compared(sheet: &Sheet, plan: &Plan, rows: &[Read], standing: Standing) -> Compared {
    let arrival = plan.arrival();
    let ticks = match ticks_of(rows, arrival, standing) {
        Ok(ticks) => ticks,
        Err(difference) => return Compared::Other(difference, None),
    };
    let mut difference = None;
    let mut by_tick: Vec<Option<Vec<i64>>> = vec![None; arrival as usize + 1];
    for (tick, row) in ticks.iter().zip(rows) {
        let Some(planned) = plan.row(*tick) else {
            let more = format!("the row of tick {tick} is past the arrival, {arrival}");
            return Compared::Other(difference.unwrap_or(more), None);
        };
        if difference.is_none() {
            difference = first_difference(sheet, *tick, &row.cells, planned.cells());
        }
        by_tick[*tick as usize] = Some(row.cells.clone());
    }
    let whole: Option<Vec<Vec<i64>>> = by_tick.into_iter().collect();
    let (Some(from), Some(to)) = (ticks.iter().min().copied(), ticks.iter().max().copied()) else {
        return Compared::Other("it has no rows".into(), None);
    };
    match (difference, whole) {
        (Some(difference), whole) => Compared::Other(difference, whole),
        (None, Some(rows)) => Compared::Whole(rows),
        (None, None) if standing.first.is_some() => Compared::Part { from, to },
        (None, None) => {
            let missing = if from > 0 { format!("0 to {}", from - 1) } else { format!("{} to {arrival}", to + 1) };
            Compared::Other(format!("rows {missing} are missing, and rows {from} to {to} are as planned"), None)
        }
    }
}

/// The tick of each row; what is wrong where they do not follow one another.
fn ticks_of(rows: &[Read], arrival: u32, standing: Standing) -> Result<Vec<u32>, String> {
    let said: Option<Vec<u32>> = rows.iter().map(|row| row.tick).collect();
    let ticks = match said {
        Some(ticks) => ticks,
        None => {
            let first = standing.first.unwrap_or(if standing.backwards { arrival } else { 0 });
            let tick = |place: usize| match standing.backwards {
                true => first.checked_sub(place as u32),
                false => first.checked_add(place as u32),
            };
            let ticks: Option<Vec<u32>> = (0..rows.len()).map(tick).collect();
            ticks.ok_or_else(|| format!("it has {} rows, more than rows {first} to 0", rows.len()))?
        }
    };
    let falls = ticks.len() > 1 && ticks[1] < ticks[0];
    for pair in ticks.windows(2) {
        let follows = if falls { pair[0].checked_sub(1) } else { pair[0].checked_add(1) };
        if follows != Some(pair[1]) {
            return Err(format!("the row of tick {} follows that of tick {}", pair[1], pair[0]));
        }
    }
    Ok(ticks)
}

/// The first cell of a row that differs, in words.
fn first_difference(sheet: &Sheet, tick: u32, found: &[i64], planned: &[i64]) -> Option<String> {
    let place = found.iter().zip(planned).position(|(found, planned)| found != planned)?;
    let (number, _) = sheet.job.entered().nth(place / 3)?;
    let (title, column) = (sheet.axis_title(number), COLUMNS[place % 3]);
    Some(format!("in row {tick} the {column} of {title} is {}, planned is {}", found[place], planned[place]))
}
