//! In which measures the numbers of a sheet are shown: units and ticks, or what the
//! sheet says that these stand for.

use polgamir::sheet::{Sheet, TourSheet, Unit};
use polgamir::{in_units, Motion};

/// The measures of one axis.
#[derive(Debug, Clone, PartialEq)]
pub struct Measure {
    /// How much a unit is.
    size: f64,
    /// The name of what it is.
    name: String,
    /// The seconds of a tick, where they are said.
    tick: Option<f64>,
}

impl Measure {
    /// The measures of an axis of a job.
    pub fn of(sheet: &Sheet, axis: usize) -> Measure {
        Measure::new(sheet.unit_of(axis), sheet.tick_seconds())
    }

    /// The measures of an axis of a tour.
    pub fn of_tour(sheet: &TourSheet, axis: usize) -> Measure {
        Measure::new(sheet.unit_of(axis), sheet.tick_seconds())
    }

    /// The measures of a unit and of the seconds of a tick.
    fn new(unit: Option<&Unit>, tick: Option<f64>) -> Measure {
        let (size, name) = unit.map_or((1.0, "units"), |unit| (unit.size, unit.name.as_str()));
        Measure { size, name: name.into(), tick }
    }

    /// Whether units and ticks stand for themselves.
    pub fn is_plain(&self) -> bool {
        self.tick.is_none() && self.size == 1.0 && self.name == "units"
    }

    /// The names of positions, velocities and accelerations.
    pub fn names(&self) -> [String; 3] {
        let (name, by) = (&self.name, if self.tick.is_some() { "s" } else { "tick" });
        [name.clone(), format!("{name}/{by}"), format!("{name}/{by}²")]
    }

    /// What one unit, one unit per tick and one unit per tick² are.
    pub fn sizes(&self) -> [f64; 3] {
        let tick = self.tick.unwrap_or(1.0);
        [self.size, self.size / tick, self.size / (tick * tick)]
    }

    /// A position, or a distance, in units.
    pub fn position(&self, units: f64) -> f64 {
        units * self.sizes()[0]
    }

    /// A velocity in units per tick.
    pub fn velocity(&self, units: f64) -> f64 {
        units * self.sizes()[1]
    }

    /// An acceleration in units per tick².
    pub fn acceleration(&self, units: f64) -> f64 {
        units * self.sizes()[2]
    }

    /// The cells of a motion, as they are shown.
    pub fn shown(&self, motion: Motion) -> [f64; 3] {
        let Motion { position, velocity, acceleration } = motion;
        let sizes = self.sizes();
        let cells = [position, velocity, acceleration];
        std::array::from_fn(|quantity| in_units(cells[quantity]) * sizes[quantity])
    }

    /// The decimals that show a fine step of positions, velocities and accelerations; eight show
    /// them exactly where a unit stands for itself.
    pub fn decimals(&self) -> [usize; 3] {
        self.sizes().map(|size| match size {
            1.0 => 8,
            size => (2.0 - in_units(1).log10() - size.log10()).ceil().clamp(0.0, 12.0) as usize,
        })
    }
}

/// A number of ticks in seconds, as a remark after them: ` (2.2 s)`, or nothing
/// where a tick's seconds are not said.
pub fn in_seconds(ticks: u32, tick: Option<f64>) -> String {
    match tick {
        Some(tick) => format!(" ({} s)", rounded(f64::from(ticks) * tick)),
        None => String::new(),
    }
}

/// A number with at most nine significant digits, without noughts at its end.
pub fn rounded(value: f64) -> String {
    let digits = 9 - 1 - value.abs().max(1e-300).log10().floor() as i32;
    let text = format!("{value:.*}", digits.clamp(0, 15) as usize);
    match text.contains('.') {
        true => text.trim_end_matches('0').trim_end_matches('.').into(),
        false => text,
    }
}

#[cfg(test)]
mod tests {
    use super::*;

    fn measure(text: &str) -> Measure {
        let axis = "axis 0\nhalf period 0\nweight 128\nspeed limit 1\nacceleration limit 1\nstart position 0\n\
                    start velocity 0\ntarget still\ntarget position 0";
        let sheet: Sheet = format!("arrival 4\n{text}\n{axis}").parse().expect("a sheet");
        Measure::of(&sheet, 0)
    }

    #[test]
    fn units_stand_for_themselves() {
        let plain = measure("");
        assert_eq!(plain.names(), ["units", "units/tick", "units/tick²"]);
        assert_eq!(plain.shown(Motion { position: 256, velocity: -1, acceleration: 128 }), [1.0, -0.00390625, 0.5]);
        assert_eq!(plain.decimals(), [8, 8, 8]);
    }

    /// 512 fine steps of a hundredth of a degree are 0.02 degree; by ticks of 1/4 second,
    /// four times and sixteen times that.
    #[test]
    fn scales_are_applied() {
        let scaled = measure("tick 0.25\nunit 0.5 degree");
        assert_eq!(scaled.names(), ["degree", "degree/s", "degree/s²"]);
        assert_eq!(scaled.shown(Motion { position: 512, velocity: 512, acceleration: 512 }), [1.0, 4.0, 16.0]);
        assert_eq!(measure("unit mm").names()[1], "mm/tick");
        assert_eq!(measure("tick 2").names()[2], "units/s²");
    }

    #[test]
    fn seconds_are_said_in_short() {
        assert_eq!(in_seconds(110, Some(0.02)), " (2.2 s)");
        assert_eq!(in_seconds(110, None), "");
        assert_eq!(rounded(1032.0 * 0.01), "10.32");
        assert_eq!(rounded(0.0), "0");
        assert_eq!(rounded(4096.0), "4096");
    }
}
