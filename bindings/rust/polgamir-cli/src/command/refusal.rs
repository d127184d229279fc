//! A refusal in words: first the sentence, then what to do, and the lines of the sheet that it is
//! about.

mod cause;
mod lines;
mod raises;
mod remedy;
mod tour;

use polgamir::sheet::{Sheet, SheetLine};
use polgamir::{Arrival, AxisMask, Refusal, LATEST_ARRIVAL};

use crate::measure::in_seconds;

pub use lines::damping_lines;
pub use raises::{of_axes as raises_of_axes, RaiseOfAxis};
pub use tour::told_of_tour;

/// A refusal in words.
pub struct Told {
    /// What is wrong, from `No plan` on.
    pub sentence: String,
    /// What to do about it, in sentences.
    pub remedy: String,
    /// What it is about: raises that would do, and entries with their lines.
    pub details: Vec<String>,
    /// The line of the crew's set-up sheet to look at.
    pub look_at: &'static str,
    /// The refusal's number.
    pub number: u32,
    /// The line of the table program.
    pub printed_line: String,
}

impl Told {
    /// The text for a person. It ends with the refusal's number.
    pub fn text(&self) -> String {
        let details: String = self.details.iter().map(|detail| format!("  {detail}\n")).collect();
        format!("{}\n{}\n{details}{} {}\n", self.sentence, self.remedy, self.line_told(), self.number_told())
    }

    /// The sentences alone, with the number.
    pub fn in_short(&self) -> String {
        format!("{} {} {}", self.sentence, self.remedy, self.number_told())
    }

    /// Which line of the set-up sheet to look at.
    pub fn line_told(&self) -> String {
        format!("On the set-up sheet look at \"{}\".", self.look_at)
    }

    /// The refusal's number, between brackets.
    pub fn number_told(&self) -> String {
        format!("[refusal {}]", self.number)
    }
}

/// The refusal of a job in words.
pub fn told(sheet: &Sheet, refusal: &Refusal) -> Told {
    let arrivals = OtherArrivals::of(sheet, refusal);
    Told {
        sentence: format!("No plan: {}", cause::sentence(sheet, refusal, &arrivals)),
        remedy: remedy::sentence(sheet, refusal, &arrivals),
        details: raises::lines(sheet, refusal).into_iter().chain(lines::about(sheet, refusal)).collect(),
        look_at: SheetLine::after(refusal).text(),
        number: refusal.number(),
        printed_line: refusal.printed_line(),
    }
}

/// The arrivals that would do in place of the asked one.
#[derive(Debug, Clone, Copy, PartialEq, Eq, Default)]
pub struct OtherArrivals {
    /// The least one, whatever is asked.
    pub least: Option<u32>,
    /// The least one after the asked one.
    pub next: Option<u32>,
}

impl OtherArrivals {
    /// Those of a job that refusal 8 comes to; none for other refusals.
    pub fn of(sheet: &Sheet, refusal: &Refusal) -> OtherArrivals {
        match refusal {
            Refusal::NotReachable { .. } => OtherArrivals { least: least_arrival(sheet), next: next_arrival(sheet) },
            _ => OtherArrivals::default(),
        }
    }
}

/// The least arrival of a job, whatever it asks for.
fn least_arrival(sheet: &Sheet) -> Option<u32> {
    let mut job = sheet.job;
    job.arrival = Arrival::Earliest;
    job.arrival_found().ok()
}

/// The least arrival after the one that a job asks for.
fn next_arrival(sheet: &Sheet) -> Option<u32> {
    let mut job = sheet.job;
    (job.arrival.number() + 1..=LATEST_ARRIVAL).find(|&tick| {
        job.arrival = Arrival::from(tick);
        job.arrival_found().is_ok()
    })
}

/// A tick with its seconds, where the sheet says them: `tick 50 (0.5 s)`.
fn tick(sheet: &Sheet, tick: u32) -> String {
    format!("tick {tick}{}", in_seconds(tick, sheet.tick_seconds()))
}

/// What a crew calls an axis: its name, or its number where it has none or shares it.
pub fn called(sheet: &Sheet, number: usize) -> String {
    let of = |other: usize| sheet.job.axes[other].as_ref().and(sheet.axis_name(other));
    match of(number) {
        Some(name) if (0..polgamir::AXES).all(|other| other == number || of(other) != Some(name)) => name.into(),
        Some(_) => sheet.axis_title(number),
        None => format!("axis {number}"),
    }
}

/// Axes as a crew calls them: `pan`, `pan and tilt`, `pan, tilt and zoom`.
fn called_all(sheet: &Sheet, axes: AxisMask) -> String {
    let names: Vec<String> = axes.axes().map(|axis| called(sheet, axis)).collect();
    match names.split_last() {
        None => "no axis".into(),
        Some((only, [])) => only.clone(),
        Some((last, before)) => format!("{} and {last}", before.join(", ")),
    }
}
