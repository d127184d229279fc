//! What is read first of a plan: how far each axis goes, and how near it comes to its limits.

use polgamir::sheet::Sheet;
use polgamir::{in_units, Accepted, Motion};

use crate::measure::{rounded, Measure};

/// What a plan does not heed.
pub const NOT_LIMITED: &str = "Jerk and end stops are not limited.";

/// A line for each axis, what is not limited, and the entries that were rounded.
pub fn of(sheet: &Sheet, accepted: &Accepted) -> String {
    let axes = accepted.axes().axes();
    let lines: String = axes.filter_map(|axis| Some(of_axis(sheet, accepted, axis)? + "\n")).collect();
    let rounded: String = sheet.rounded().iter().map(|rounded| format!("{rounded}\n")).collect();
    let rounded = if rounded.is_empty() { rounded } else { format!("\nEntries that were rounded:\n{rounded}") };
    lines + NOT_LIMITED + "\n" + &rounded
}

/// The least and greatest position of an axis, and its greatest speed and
/// acceleration beside their limits.
fn of_axis(sheet: &Sheet, accepted: &Accepted, number: usize) -> Option<String> {
    let (axis, measure) = (sheet.job.axes[number].as_ref()?, Measure::of(sheet, number));
    let (sizes, names) = (measure.sizes(), measure.names());
    let range = accepted.position_range(number)?;
    let shown = |quantity: usize, cell: i64| rounded(in_units(cell) * sizes[quantity]);
    let greatest = |of: fn(Motion) -> i64| {
        accepted.rows().filter_map(|row| row.axis(number)).map(|motion| of(motion).abs()).max().unwrap_or(0)
    };
    let limit = |quantity: usize, units: u32| rounded(f64::from(units) * sizes[quantity]);
    Some(format!(
        "{}: position {} to {} {}, speed up to {} of {} {}, acceleration up to {} of {} {}",
        sheet.axis_title(number),
        shown(0, *range.start()),
        shown(0, *range.end()),
        names[0],
        shown(1, greatest(|motion| motion.velocity)),
        limit(1, axis.speed_limit),
        names[1],
        shown(2, greatest(|motion| motion.acceleration)),
        limit(2, axis.acceleration_limit),
        names[2]
    ))
}
