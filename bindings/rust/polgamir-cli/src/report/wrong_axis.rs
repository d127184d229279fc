//! The block of an axis: its pictures, and the charts and numbers of what is left on a
//! pole that is another than entered.

use super::bound::Bound;
use super::entry::Entry;
use super::html::{self, Cell};
use super::told::{amount, half_period_told, ratio_told};
use super::wrong_pole::{self, Left, WrongPole, TOLD_PERCENTS, TOLD_RATIOS};
use crate::picture::chart::Chart;
use crate::picture::svg::{stroke, Stroke};
use crate::picture::Sample;

/// What the charts show, of a table that is called so.
pub fn told(tables_name: &str) -> String {
    format!(
        "The blend cancels the sway of the pole that was entered. The last two pictures of an axis, and the numbers \
         below them, say what {tables_name} leaves where the pole is another: first its half period, then how far each \
         swing shrinks. 0 is what was entered; a plus is a true value above it. No swing grows, so that curves over \
         the swing ratio end where the true ratio would be above 1. The curve is simulated. The bound is proved: no \
         table of the axis that arrives at its tick leaves more, however its cells are rounded; most leave much less."
    )
}

/// The block of the numbers of an axis. Of many swings a printer leaves the numbers out: their
/// charts are enough to fill its pages.
pub fn numbers(entry: &Entry, poles: &[WrongPole], swings: usize) -> String {
    const MOST_PRINTED: usize = 6;
    let tables: String = poles.iter().map(|pole| tables(entry, pole)).collect();
    html::block(if swings > MOST_PRINTED { "tables crowded" } else { "tables" }, &tables)
}

/// The key of the charts' lines.
pub fn key(tables_name: &str) -> String {
    html::key(&[
        (Sample::Line(stroke::PLAN), format!("left by {tables_name}, simulated")),
        (Sample::Line(stroke::UNBLENDED), "left by the same without the blend, at its own arrival".into()),
        (Sample::Line(stroke::BOUND), "at most, proved".into()),
    ])
}

/// The charts of a swing, as pictures.
pub fn charts(entry: &Entry, pole: &WrongPole, index: usize) -> [String; 2] {
    let prefix = format!("axis{}swing{index}", entry.number);
    [
        chart_of_half_period(entry, pole).draw(&format!("{prefix}half")),
        chart_of_damping(entry, pole).draw(&format!("{prefix}damping")),
    ]
}

/// The numbers of a swing: a table over the errors of its half period, and one over those of its
/// ratio.
fn tables(entry: &Entry, pole: &WrongPole) -> String {
    percents_table(entry, pole) + &ratios_table(entry, pole)
}

/// The curves of a chart: the bound at the bottom, without the blend above it, the table's at the
/// top.
fn strokes(over: &[(f64, Left)], bounds: Vec<(f64, f64)>) -> Vec<(Vec<(f64, f64)>, Stroke)> {
    let (plan, unblended) = wrong_pole::curves(over);
    vec![(bounds, stroke::BOUND), (unblended, stroke::UNBLENDED), (plan, stroke::PLAN)]
}

/// The chart over the error of the half period.
fn chart_of_half_period(entry: &Entry, pole: &WrongPole) -> Chart {
    let (over, bound, swing) = (pole.over_percents(), Bound::of(entry, pole), pole.swing());
    let bounds = over.iter().filter_map(|&(percent, _)| Some((percent, bound.at_percent(percent)?))).collect();
    Chart {
        title: format!("{}: {} left over the error of the half period", entry.title, swing.name()),
        across: format!("true {} against {} ticks", swing.half_period_name(), half_period_told(&swing)),
        suffix: "%",
        upward: format!("{} left, {}", swing.name(), entry.sway_name()),
        range: (over[0].0, over[over.len() - 1].0),
        curves: strokes(&over, bounds),
    }
}

/// The chart over the error of the swing ratio.
fn chart_of_damping(entry: &Entry, pole: &WrongPole) -> Chart {
    let (over, bound, swing) = (pole.over_ratios(), Bound::of(entry, pole), pole.swing());
    let bounds = over.iter().filter_map(|&(error, _)| Some((error, bound.at_ratio(error)?))).collect();
    Chart {
        title: format!("{}: {} left over the error of the damping", entry.title, swing.name()),
        across: format!("true swing ratio against {}", ratio_told(swing.ratio)),
        suffix: "",
        upward: format!("{} left, {}", swing.name(), entry.sway_name()),
        range: (over[0].0, over[over.len() - 1].0),
        curves: strokes(&over, bounds),
    }
}

/// A table of what is left at some errors: simulated, proved, and without the blend.
fn left_table(
    entry: &Entry,
    pole: &WrongPole,
    name: &str,
    errors: &[(f64, Left, Option<f64>)],
    suffix: &str,
) -> String {
    let or_none = |number: Option<f64>| Cell::Number(number.map_or("–".into(), amount));
    let row = |(error, left, bound): &(f64, Left, Option<f64>)| {
        let error = if *error == 0.0 { "as entered".into() } else { format!("{}{suffix}", signed(*error)) };
        vec![Cell::Number(error), Cell::Number(amount(left.plan)), or_none(*bound), or_none(left.unblended)]
    };
    let rows: Vec<Vec<Cell>> = errors.iter().map(row).collect();
    let caption = format!("{} left, {}, over the error of the {name}", pole.swing().name(), entry.sway_name());
    html::narrow_table(&caption, &["error", "simulated", "at most, proved", "without the blend"], &rows)
}

/// What is left at some errors of the half period.
fn percents_table(entry: &Entry, pole: &WrongPole) -> String {
    let bound = Bound::of(entry, pole);
    let at = |percent: f64| (percent, pole.at_percent(percent), bound.at_percent(percent));
    left_table(entry, pole, pole.swing().half_period_name(), &TOLD_PERCENTS.map(at), "%")
}

/// What is left at some errors of the swing ratio.
fn ratios_table(entry: &Entry, pole: &WrongPole) -> String {
    let bound = Bound::of(entry, pole);
    let at = |&error: &f64| Some((error, pole.at_ratio(error)?, bound.at_ratio(error)));
    let errors: Vec<(f64, Left, Option<f64>)> = TOLD_RATIOS.iter().filter_map(at).collect();
    left_table(entry, pole, "swing ratio", &errors, "")
}

/// A number with its sign.
fn signed(number: f64) -> String {
    match number < 0.0 {
        true => format!("−{}", -number),
        false => format!("+{number}"),
    }
}
