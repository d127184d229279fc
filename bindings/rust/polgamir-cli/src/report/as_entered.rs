//! What is left on the pole as it was entered, and apart from one another what each rounding
//! leaves.

use super::entry::Entry;
use super::html::{self, Cell};
use super::told::{amount, half_period_told, ratio_told};
use super::wrong_pole::{Roundings, WrongPole};
use crate::picture::{LEFT, SWAY};

/// What the numbers of the section are.
const ROUNDINGS: &str = "The planner takes the half period in whole ticks and the damping as a whole weight, and \
    writes whole cells. What the rounding of each leaves by itself is told apart; together they add up, or cancel in \
    part.";

/// The section: a row for each swing of each axis.
pub fn section(axes: &[(&Entry, Vec<WrongPole>)]) -> String {
    let poles = || axes.iter().flat_map(|(entry, poles)| poles.iter().map(move |pole| (*entry, pole)));
    if poles().next().is_none() {
        return html::paragraph("No axis has a half period: they are planned without a blend, for no pole.");
    }
    let rounded = poles().any(|(_, pole)| pole.swing().half_period_is_rounded());
    let mut headings = vec!["axis", "pole as entered", "planned for", "in", "sway left"];
    if rounded {
        headings.push("by rounding the half period");
    }
    headings.extend(["by rounding the damping", "by rounding the cells", "without the blend"]);
    let rows: Vec<Vec<Cell>> = poles().map(|(entry, pole)| row(entry, pole, rounded)).collect();
    html::paragraph(&format!("{SWAY} {LEFT}")) + &html::paragraph(ROUNDINGS) + &html::table(&headings, &rows)
}

/// The row of a swing.
fn row(entry: &Entry, pole: &WrongPole, rounded: bool) -> Vec<Cell> {
    let (swing, left) = (pole.swing(), pole.left());
    let name = if swing.second { format!("{}, second sway", entry.title) } else { entry.title.clone() };
    let or_none = |number: Option<f64>| Cell::Number(number.map_or("–".into(), amount));
    let roundings = pole.roundings();
    let of = |part: fn(Roundings) -> f64| or_none(roundings.map(part));
    let entered = format!("{} ticks, {}", half_period_told(&swing), ratio_told(swing.ratio));
    let planned = match swing.second {
        true => format!("{} ticks, 1", swing.half_period),
        false => {
            let weight = entry.axis.damping.weight().unwrap_or(0);
            format!("{} ticks, {} (weight {weight})", swing.half_period, ratio_told(swing.planned_ratio))
        }
    };
    let mut cells = vec![
        Cell::Words(name),
        Cell::Words(entered),
        Cell::Words(planned),
        Cell::Words(entry.sway_name()),
        Cell::Number(amount(left.plan)),
    ];
    if rounded {
        cells.push(of(|roundings| roundings.half_period));
    }
    cells.extend([of(|roundings| roundings.weight), of(|roundings| roundings.cells), or_none(left.unblended)]);
    cells
}
