//! What recorded taps say of a plan: the poles that they show, their misfits, and
//! the sway that these can leave.

use super::bound::Bound;
use super::entry::Entry;
use super::html::{self, Cell};
use super::told::{amount, ratio_told};
use super::wrong_pole::WrongPole;
use crate::measure::rounded;
use crate::tap::{self, Rate, Tap};

/// A recorded tap.
pub struct Record {
    /// The file's name.
    pub name: String,
    /// The axis that it is for; `None` for every axis with a half period.
    pub axis: Option<usize>,
    /// The seconds of a tick.
    pub tick: f64,
    /// What it shows.
    pub tap: Tap,
}

/// What the section tells.
const TOLD: &str = "A record is held to the pole that its axis is planned for. Its misfit is what the blend leaves of \
    the recorded swing, tick by tick, noise and all. From the greatest misfit E and the greatest deflection G it is \
    proved how much sway a table of the axis leaves at most of such a swing (docs/METHOD.md, 5.5): V × E before \
    rounding, N × G more as rounded. The record is scaled so that its strongest swing is that of an oscillator of its \
    half period after a push of 1 unit per tick²; the numbers are in proportion to the real pole's sway. Misfits after \
    the record's end are taken to be no greater. Beside it stands what an oscillator with the fitted half period and \
    ratio keeps.";

/// The section: a table for each record and each axis that it is for. Nothing where there is no
/// record.
pub fn section(axes: &[(&Entry, Vec<WrongPole>)], records: &[Record]) -> String {
    if records.is_empty() {
        return String::new();
    }
    let told = records.iter().flat_map(|record| {
        let is_meant = |entry: &Entry| record.axis.map_or(!entry.swings.is_empty(), |axis| axis == entry.number);
        axes.iter().filter(move |(entry, _)| is_meant(entry)).map(move |(entry, poles)| of_axis(entry, poles, record))
    });
    let tables = html::block("tables", &told.collect::<String>());
    html::section("What the recorded tap says", &(html::paragraph(TOLD) + &tables))
}

/// The table of a record and an axis.
fn of_axis(entry: &Entry, poles: &[WrongPole], record: &Record) -> String {
    let mut rows: Vec<Vec<Cell>> = Vec::new();
    let mut line = |what: String, number: String| rows.push(vec![Cell::Words(what), Cell::Number(number)]);
    for (pole, rate) in poles.iter().zip(&record.tap.rates) {
        for (what, number) in of_rate(entry, pole, rate, record.tick) {
            line(what, number);
        }
    }
    let arrival = poles.iter().map(WrongPole::latest_arrival).max().unwrap_or(0);
    let misfit = record.tap.misfit(entry.axis, record.tick);
    let left = misfit.and_then(|misfit| misfit.sway_left(entry.axis, arrival));
    match misfit.zip(left) {
        Some((misfit, (exact, as_rounded))) => {
            let weights = if entry.axis.second_half_period.is_some() { 512.0 } else { 256.0 };
            let part = |size: u64| format!("{:.2} %", 100.0 * size as f64 / (weights * misfit.size as f64));
            let shown = |units: f64| format!("{} {}", amount(entry.measure.position(units)), entry.sway_name());
            line(format!("greatest misfit, of {weights} × G"), part(misfit.greatest));
            line("that of the fitted swing, without noise".into(), part(misfit.of_fit));
            line("ticks of swing in the record".into(), misfit.ticks.to_string());
            line("sway it leaves at most, before rounding, proved".into(), shown(exact));
            line("sway it leaves at most, as rounded, proved".into(), shown(as_rounded));
        }
        None => line("misfit".into(), "the record is shorter than the half periods".into()),
    }
    html::narrow_table(&format!("{}: {}", entry.title, record.name), &["", ""], &rows)
}

/// What a rate of a record says of a swing of the pole.
fn of_rate(entry: &Entry, pole: &WrongPole, rate: &Rate, tick: f64) -> Vec<(String, String)> {
    let (swing, half_period) = (pole.swing(), rate.half_period.value / tick);
    let (value, low, high) = tap::shown(&rate.half_period);
    let (ratio, least, most) = tap::shown(&rate.ratio);
    let (name, sway) = (swing.half_period_name(), swing.name());
    let shown = |number: f64| format!("{} {}", amount(number), entry.sway_name());
    let mut lines = vec![
        (
            format!("{name}, fitted"),
            format!("{value} s ({low} to {high} s), {} ticks", rounded_to_hundredths(half_period)),
        ),
        (format!("{name}, planned for"), format!("{} ticks", swing.half_period)),
        (format!("swing ratio of the {sway}, fitted"), format!("{ratio} ({least} to {most})")),
        (format!("swing ratio of the {sway}, planned for"), ratio_told(swing.planned_ratio)),
        (format!("{sway} left on the fitted pole, simulated"), shown(pole.left_where(half_period, rate.ratio.value))),
    ];
    let bound = Bound::of(entry, pole).at(half_period, rate.ratio.value);
    lines.extend(bound.map(|bound| (format!("{sway} left on the fitted pole at most, proved"), shown(bound))));
    lines
}

/// A number of ticks with up to two decimals.
fn rounded_to_hundredths(ticks: f64) -> String {
    rounded((ticks * 100.0).round() / 100.0)
}
