//! What to do about a refusal, in a sentence.

use polgamir::sheet::Sheet;
use polgamir::{Arrival, Refusal, WordKind, AXES, LATEST_ARRIVAL, LONGEST_DWELL, MOST_WINDOWS};

use super::OtherArrivals;

/// What to do.
pub fn sentence(sheet: &Sheet, refusal: &Refusal, arrivals: &OtherArrivals) -> String {
    let windowed = sheet.job.windows.is_some();
    match refusal {
        Refusal::Mask => format!("Enter at least one of the axes 0 to {}.", AXES - 1),
        Refusal::Words { .. } | Refusal::LongPosition { .. } => "Write the words again from the sheet.".into(),
        Refusal::AskedArrival => {
            format!("Write a tick from 1 to {LATEST_ARRIVAL}, or `arrival earliest`{}.", in_line(sheet))
        }
        Refusal::Limits { .. } => "Enter what the motor allows, within the range.".into(),
        Refusal::Damping { .. } | Refusal::Blend { .. } | Refusal::SecondHalfPeriod { .. } => {
            "Tap again and enter what the pole does.".into()
        }
        Refusal::StartOrTarget { .. } => "Enter where the axis is and goes, within what its limits allow.".into(),
        Refusal::Acceleration { .. } => {
            "Enter a target without acceleration, or leave the second half period out and let the pole sway at that \
             rate."
                .into()
        }
        Refusal::FlyingTarget { .. } => of_flying(sheet.job.arrival),
        Refusal::Windows { .. } => format!(
            "Enter 1 to {MOST_WINDOWS} windows in the order of their ticks, and a dwell from 0 to {LONGEST_DWELL}."
        ),
        Refusal::NotReachable { axes } => match written_arrivals(sheet, arrivals) {
            Some(written) if axes.is_empty() => {
                format!("{written}, or look whether the site permits other windows or a shorter dwell does.")
            }
            Some(written) => format!("{written}."),
            None => nearer(windowed && axes.is_empty()),
        },
        Refusal::NoCommonArrival { axes } => nearer(windowed && axes.is_empty()),
        Refusal::TableTooShort { .. } => "Give `--cells` that many, or leave it out.".into(),
        _ => "Nothing was planned.".into(),
    }
}

/// What to do where no arrival is found.
fn nearer(windows: bool) -> String {
    match windows {
        true => {
            "Look whether the site permits other windows or a shorter dwell does, or change limits or targets.".into()
        }
        false => {
            "Bring start and target nearer, change a moving target, or raise limits as far as the motors allow.".into()
        }
    }
}

/// What to write as `arrival`, and in which line, where some arrival would do.
fn written_arrivals(sheet: &Sheet, arrivals: &OtherArrivals) -> Option<String> {
    let (asked, least) = (sheet.job.arrival.number(), arrivals.least?);
    let next = arrivals.next.filter(|_| least < asked).map(|next| format!("`arrival {next}`, "));
    Some(format!("Write {}`arrival {least}` or `arrival earliest`{}", next.unwrap_or_default(), in_line(sheet)))
}

/// The line of the arrival, where the sheet was read from lines.
fn in_line(sheet: &Sheet) -> String {
    sheet.line_of(None, WordKind::Arrival).map(|line| format!(" in line {line}")).unwrap_or_default()
}

/// What to write in place of a flying target.
fn of_flying(arrival: Arrival) -> String {
    let written = "Write `target moving` with the same position and velocity, `target acceleration 0`";
    match arrival {
        Arrival::Earliest => format!("{written} and as `target tick` the tick at which the target is at its position."),
        Arrival::At(tick) => format!("{written} and `target tick {tick}`."),
    }
}
