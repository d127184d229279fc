//! Numbers and answers of a report in words.

use polgamir::sheet::Rounded;
use polgamir::{AxisRaises, Limit, Raise};

use super::arrivals::{Earlier, OfAxis};
use super::entry::Entry;
use super::html::{self, Cell};
use super::rows::{Miss, Nearest};
use super::wrong_pole::{Left, WrongPole};
use crate::measure::rounded;
use crate::picture::scale::quantity;
use crate::picture::swing::Swing;

/// The section of the entries that no whole number of ticks or units meets; nothing where all are
/// met.
pub fn rounded_entries(rounded: &[Rounded]) -> String {
    match rounded {
        [] => String::new(),
        rounded => {
            let sentences: Vec<String> = rounded.iter().map(Rounded::to_string).collect();
            html::section("Entries that were rounded", &html::list(&sentences))
        }
    }
}

/// How many axes were planned, and by what.
pub fn planned_by(axes: usize, tick: Option<f64>) -> String {
    let axes = match axes {
        1 => "1 axis".into(),
        count => format!("{count} axes"),
    };
    let seconds = tick.map(|tick| format!("; a tick is {} s", rounded(tick)));
    format!("{axes}, planned by polgamir {}{}", env!("CARGO_PKG_VERSION"), seconds.unwrap_or_default())
}

/// What the blend costs, with its seconds where they are known.
pub fn cost_told(cost: i64, tick: Option<f64>) -> String {
    let ticks = if cost.abs() == 1 { "tick" } else { "ticks" };
    let seconds = tick.map(|tick| format!(" ({} s)", rounded(cost as f64 * tick)));
    format!("{cost} {ticks}{}", seconds.unwrap_or_default())
}

/// What is left of a sway on the pole that was entered.
pub fn left_card(entry: &Entry, pole: &WrongPole) -> (String, String) {
    let Left { plan, unblended } = pole.left();
    let without = unblended.map(|left| format!("; without the blend {}", amount(left))).unwrap_or_default();
    let left = format!(
        "{} left on {} if the pole is as entered, in proportion to the real pole's{without}",
        pole.swing().name(),
        entry.title
    );
    (format!("{} {}", amount(plan), entry.position_name()), left)
}

/// The half period of a swing as entered, in ticks.
pub fn half_period_told(swing: &Swing) -> String {
    match swing.half_period_is_rounded() {
        true => rounded(swing.entered_half_period),
        false => swing.half_period.to_string(),
    }
}

/// A swing ratio with up to four decimals.
pub fn ratio_told(ratio: f64) -> String {
    format!("{ratio:.4}").trim_end_matches('0').trim_end_matches('.').into()
}

/// Half fine steps as a number of fine steps with its name.
pub fn fine_steps(halves_of_steps: i64) -> String {
    let name = if (1..=2).contains(&halves_of_steps) { "fine step" } else { "fine steps" };
    format!("{} {name}", halves(halves_of_steps))
}

/// A number of ticks.
pub fn counted(ticks: u32) -> String {
    match ticks {
        1 => "1 tick".into(),
        ticks => format!("{ticks} ticks"),
    }
}

/// A quantity of a sway with three significant digits; below a millionth it is
/// 0, for floats carry no further.
pub fn amount(value: f64) -> String {
    match value.abs() {
        size if size < 1e-6 => "0".into(),
        size if size >= 1.0 => quantity(value),
        size => {
            let decimals = (2.0 - size.log10().floor()).clamp(0.0, 8.0) as usize;
            format!("{value:.decimals$}")
        }
    }
}

/// Half fine steps as a number of fine steps.
pub fn halves(halves: i64) -> String {
    match halves % 2 {
        0 => (halves / 2).to_string(),
        _ => format!("{halves}/2"),
    }
}

/// The row that misses, where one does.
pub fn at_tick(miss: Miss) -> String {
    match miss.halves {
        0 => "–".into(),
        _ => miss.tick.to_string(),
    }
}

/// A line of the limits.
pub fn limit_row(name: String, nearest: Nearest, size: f64, measure: &str) -> Vec<Cell> {
    let shown = |fine_steps: i64| rounded(polgamir::in_units(fine_steps) * size);
    vec![
        Cell::Words(name),
        Cell::Bar(nearest.part(), format!("{:.0} %", 100.0 * nearest.part())),
        Cell::Number(shown(nearest.size)),
        Cell::Number(shown(nearest.limit)),
        Cell::Words(measure.into()),
        Cell::Number(nearest.tick.to_string()),
        Cell::Number(nearest.rows_at_limit.to_string()),
    ]
}

/// Whether an axis could arrive one tick earlier, and if not, what would have to be turned.
pub fn earlier_told(entry: &Entry, alone: &OfAxis, arrival: u32) -> String {
    match alone.earlier {
        Earlier::NoTick => "there is no tick before tick 1".into(),
        Earlier::Could => "it could".into(),
        Earlier::CouldNot(raises) if raises.first.is_none() && arrival - 1 <= entry.delay() => {
            let name = if entry.axis.second_half_period.is_some() { "both half periods" } else { "the half period" };
            format!("it could not: an arrival has to be after {name}, {}", counted(entry.delay()))
        }
        Earlier::CouldNot(AxisRaises { first: None, .. }) => {
            "it could not, and no raise of one limit alone would do".into()
        }
        Earlier::CouldNot(raises) => {
            let told: Vec<String> = raises.iter().map(|raise| raise_told(entry, raise)).collect();
            format!("it could not; it would take {}", told.join(", or "))
        }
    }
}

/// A raised limit, beside what it is.
pub fn raise_told(entry: &Entry, raise: Raise) -> String {
    let ([_, speed, acceleration], [_, speeds, accelerations]) = (entry.measure.sizes(), entry.measure.names());
    let (name, from, size, measure) = match raise.limit {
        Limit::Acceleration => ("an acceleration", entry.axis.acceleration_limit, acceleration, accelerations),
        Limit::Speed => ("a speed", entry.axis.speed_limit, speed, speeds),
    };
    let shown = |limit: u32| rounded(f64::from(limit) * size);
    format!("{name} limit of {} {measure} in place of {}", shown(raise.raised(entry.axis)), shown(from))
}

/// What the blend costs in ticks; fewer than none where a head that moves arrives sooner with it.
pub fn cost_of(blended: Option<u32>, unblended: Option<u32>) -> Option<i64> {
    Some(i64::from(blended?) - i64::from(unblended?))
}
