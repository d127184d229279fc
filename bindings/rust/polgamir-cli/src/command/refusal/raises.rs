//! What to raise so that an asked arrival can be made.

use polgamir::sheet::Sheet;
use polgamir::{Limit, Raise, Refusal, WordKind};

use super::{called, tick};
use crate::measure::{rounded, Measure};

/// The raise of one limit of an axis that lets it arrive at the asked tick.
#[derive(Debug, Clone, Copy, PartialEq, Eq)]
pub struct RaiseOfAxis {
    /// The limit, and by how much it is raised.
    pub raise: Raise,
    /// What it is raised to.
    pub to: u32,
}

/// For each axis that refusal 8 names, its least raises of one limit alone, the smaller first;
/// perhaps none.
pub fn of_axes(sheet: &Sheet, refusal: &Refusal) -> Vec<(usize, Vec<RaiseOfAxis>)> {
    if !matches!(refusal, Refusal::NotReachable { .. }) {
        return Vec::new();
    }
    let raises = sheet.job.raises();
    let told = raises.axes().filter_map(|(number, raises)| {
        let axis = sheet.job.axes[number].as_ref()?;
        Some((number, raises.iter().map(|raise| RaiseOfAxis { raise, to: raise.raised(axis) }).collect()))
    });
    told.collect()
}

/// The raises in words, a line for each axis, and that the tick fits no window, which raises do not
/// heed.
pub fn lines(sheet: &Sheet, refusal: &Refusal) -> Vec<String> {
    let axes = of_axes(sheet, refusal);
    let asked = sheet.job.arrival.number();
    let mut lines: Vec<String> = Vec::new();
    match axes.iter().all(|(_, raises)| !raises.is_empty()) {
        _ if axes.is_empty() => {}
        true => lines.push(format!("Or, to keep {}, raise as far as the motors allow:", tick(sheet, asked))),
        false => lines.push(format!("To keep {}, no raise of one limit of each axis would do:", tick(sheet, asked))),
    }
    lines.extend(axes.iter().map(|(number, raises)| of_axis(sheet, *number, raises)));
    if !axes.is_empty() && sheet.job.windows.is_some_and(|windows| !windows.fit(asked)) {
        lines.push(format!("  {} fits no window either", tick(sheet, asked)));
    }
    lines
}

/// The raises of one axis in words.
fn of_axis(sheet: &Sheet, number: usize, raises: &[RaiseOfAxis]) -> String {
    let name = called(sheet, number);
    let told: Vec<String> = raises.iter().map(|raise| in_words(sheet, number, raise)).collect();
    match told.is_empty() {
        true => format!("  {name}: no speed limit and no acceleration limit alone"),
        false => format!("  {name}: the {}", told.join(", or the ")),
    }
}

/// A raise in words, in units, with the measure that the sheet gives and the line of the limit.
fn in_words(sheet: &Sheet, number: usize, RaiseOfAxis { raise, to }: &RaiseOfAxis) -> String {
    let measure = Measure::of(sheet, number);
    let ([_, speed, acceleration], [_, speeds, accelerations]) = (measure.sizes(), measure.names());
    let (entry, size, name) = match raise.limit {
        Limit::Speed => (WordKind::SpeedLimit, speed, speeds),
        Limit::Acceleration => (WordKind::AccelerationLimit, acceleration, accelerations),
    };
    let mut remarks = Vec::new();
    if !measure.is_plain() {
        remarks.push(format!("{} {name}", rounded(f64::from(*to) * size)));
    }
    remarks.extend(sheet.line_of(Some(number), entry).map(|line| format!("line {line}")));
    let remarks = if remarks.is_empty() { String::new() } else { format!(" ({})", remarks.join(", ")) };
    format!("{} by {} to {to}{remarks}", raise.limit, raise.by)
}
