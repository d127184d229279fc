//! The entries that a refusal is about, each with its line of the sheet.

use polgamir::sheet::Sheet;
use polgamir::{Damping, OutOfRange, Refusal, Window, Windows, WordKind, LONGEST_DWELL, MOST_WINDOWS};

use super::called;

/// The lines that a refusal is about.
pub fn about(sheet: &Sheet, refusal: &Refusal) -> Vec<String> {
    let mut lines = window_lines(sheet, refusal);
    for number in refusal.axis().into_iter().chain(refusal.mask().axes()) {
        lines.extend(guilty_lines(sheet, number, refusal.number()));
        if let Refusal::Damping { axis } = refusal {
            lines.extend(damping_lines(sheet, *axis));
        }
        lines.extend(concerned_lines(sheet, number, concerns(refusal)));
    }
    lines
}

/// The lines about windows that a refusal is about: those at fault, or all where the arrival fits
/// none.
fn window_lines(sheet: &Sheet, refusal: &Refusal) -> Vec<String> {
    let Some(windows) = &sheet.job.windows else {
        return Vec::new();
    };
    let at = |line: Option<usize>| line.map(|line| format!("line {line}: ")).unwrap_or_default();
    let dwell = format!("{}dwell {}", at(sheet.line_of_dwell()), windows.dwell());
    let window = |(index, window): (usize, &Window)| {
        format!("{}window {} {}", at(sheet.line_of_window(index)), window.opening, window.closing)
    };
    let all = windows.list().iter().enumerate();
    match *refusal {
        Refusal::Windows { .. } if windows.count() == 0 => vec![dwell + ", expected a `window` beside it"],
        Refusal::Windows { place: MOST_WINDOWS } if windows.count() > MOST_WINDOWS => {
            vec![format!("{}the first window too many", at(sheet.line_of_window(MOST_WINDOWS)))]
        }
        Refusal::Windows { place: MOST_WINDOWS } => vec![format!("{dwell}, expected 0 to {LONGEST_DWELL}")],
        Refusal::Windows { place } => {
            all.skip(place).take(1).map(|at| window(at) + &wrong_window(windows, place)).collect()
        }
        Refusal::NotReachable { axes } | Refusal::NoCommonArrival { axes } if axes.is_empty() => {
            all.map(window).chain([dwell]).collect()
        }
        _ => Vec::new(),
    }
}

/// What is expected of a window that is at fault.
fn wrong_window(windows: &Windows, place: usize) -> String {
    let window = windows.list()[place];
    match place.checked_sub(1).map(|before| windows.list()[before]) {
        Some(before) if window.opening < before.closing && window.closing > window.opening => {
            format!(", expected an opening from {} on, where the window before it closes", before.closing)
        }
        _ => format!(", expected a closing above {}", window.opening),
    }
}

/// Where an entry stands, where its sheet was read from lines.
fn place(sheet: &Sheet, axis: Option<usize>, entry: WordKind) -> String {
    sheet.line_of(axis, entry).map(|line| format!("line {line}: ")).unwrap_or_default()
}

/// The entries of an axis that are outside their ranges, of those that a refusal's number speaks
/// of.
fn guilty_lines(sheet: &Sheet, number: usize, refusal: u32) -> Vec<String> {
    let faults = sheet.job.axes[number].iter().flat_map(|axis| axis.out_of_range());
    let faults = faults.filter(|fault| fault.refusal_number() == refusal);
    let told = faults.map(|fault| {
        let (place, title) = (place(sheet, Some(number), fault.entry), called(sheet, number));
        let entered = as_entered(sheet, number, &fault);
        let (least, greatest) = fault.range.into_inner();
        format!("{place}{title}: {} {}{entered}, expected {least} to {greatest}", fault.entry.name(), fault.value)
    });
    told.collect()
}

/// How a number that is out of range was entered, where it has a crew's unit, and what would bring
/// it in.
fn as_entered(sheet: &Sheet, number: usize, fault: &OutOfRange) -> String {
    let Some(entered) = sheet.as_entered(Some(number), fault.entry) else {
        return String::new();
    };
    let remedy = match fault.entry {
        _ if fault.value < *fault.range.end() => "",
        WordKind::HalfPeriod | WordKind::SecondHalfPeriod | WordKind::TargetTick => "; a longer `tick` would do",
        WordKind::SpeedLimit | WordKind::AccelerationLimit => "; a coarser `unit` or a shorter `tick` would do",
        WordKind::StartPosition | WordKind::TargetPosition => "; a coarser `unit` would do",
        _ => "",
    };
    format!(" (entered as `{entered}`{remedy})")
}

/// The damping of an axis, where the planner refuses it as measured.
pub fn damping_lines(sheet: &Sheet, number: usize) -> Vec<String> {
    let dampings = sheet.job.axes[number].iter().map(|axis| axis.damping);
    let told = dampings.filter(|damping| damping.weight().is_none()).map(|damping| {
        let (place, title) = (place(sheet, Some(number), WordKind::SecondWeight), called(sheet, number));
        let expected = match damping {
            Damping::Peaks { .. } => "two numbers above 0, the second not above the first",
            _ => "a number above 0 and at most 1",
        };
        format!("{place}{title}: {damping}, expected {expected}")
    });
    told.collect()
}

/// The entries of an axis that have a part in a refusal.
fn concerned_lines(sheet: &Sheet, number: usize, concerned: &[WordKind]) -> Vec<String> {
    let entries = sheet.job.axes[number].iter().flat_map(|axis| axis.entries().map(|entry| (axis.damping, entry)));
    let concerned = entries.filter(|(_, (entry, _))| concerned.contains(entry));
    let told = concerned.filter_map(|(damping, (entry, value))| {
        // A still target's velocity has no line of its own.
        let has_line = sheet.line_of(None, WordKind::Arrival).is_none() || sheet.line_of(Some(number), entry).is_some();
        let place = place(sheet, Some(number), entry);
        let entered = match entry {
            WordKind::SecondWeight => damping.to_string(),
            _ => format!("{} {value}", entry.name()),
        };
        has_line.then(|| format!("{place}{}: {entered}", called(sheet, number)))
    });
    told.collect()
}

/// The entries of an axis that have a part in a refusal which no single entry is at fault for.
fn concerns(refusal: &Refusal) -> &'static [WordKind] {
    use WordKind::*;
    match refusal {
        Refusal::Acceleration { .. } => &[SecondHalfPeriod, TargetAcceleration],
        Refusal::NoCommonArrival { .. } => &[SpeedLimit, AccelerationLimit, StartPosition, TargetPosition],
        Refusal::FlyingTarget { .. } => &[TargetPosition, TargetVelocity],
        _ => &[],
    }
}
