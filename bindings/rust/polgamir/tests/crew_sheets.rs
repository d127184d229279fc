//! Sheets in a crew's units against the reference of `tests/reference/sheets.py`, and wrong ones
//! against what is written beside them.

use std::fmt::Write;
use std::fs;
use std::path::{Path, PathBuf};

use polgamir::sheet::{Rounded, Setup, Sheet, SheetErrors};
use polgamir::{Arrival, Damping, Target, WordKind};

/// A folder of the repository.
fn folder(name: &str) -> PathBuf {
    Path::new(env!("CARGO_MANIFEST_DIR")).join("../../..").join(name)
}

/// Each sheet of a folder with its name, and with what is expected of it in a folder of texts.
fn sheets(sheets: &str, texts: &str) -> Vec<(String, String, String)> {
    let read = |path: &Path| fs::read_to_string(path).unwrap_or_else(|error| panic!("{}: {error}", path.display()));
    let entries = fs::read_dir(folder(sheets)).expect("a folder of sheets");
    let paths = entries.map(|entry| entry.expect("an entry").path());
    let read_both = |path: PathBuf| {
        let text = folder(texts).join(path.file_name().expect("a name")).with_extension("txt");
        (path.display().to_string(), read(&path), read(&text))
    };
    paths.filter(|path| path.extension() == Some("sheet".as_ref())).map(read_both).collect()
}

/// The entries of an axis, in the order of their names.
fn axis_text(number: usize, mut entries: Vec<(String, String)>, damping: Damping) -> String {
    let damping = damping.to_string();
    let (name, value) = damping.split_once(' ').expect("a name and a value");
    entries.push((name.into(), value.into()));
    entries.sort();
    entries.iter().fold(format!("axis {number}\n"), |text, (name, value)| format!("{text}{name} {value}\n"))
}

/// What is said of entries that were rounded.
fn notes_text(rounded: &[Rounded]) -> String {
    rounded.iter().map(|rounded| format!("note {rounded}\n")).collect()
}

/// A job in the form of the reference.
fn job_text(sheet: &Sheet) -> String {
    let mut text = match sheet.job.arrival {
        Arrival::Earliest => "arrival earliest\n".into(),
        Arrival::At(tick) => format!("arrival {tick}\n"),
    };
    if let Some(windows) = &sheet.job.windows {
        let _ = writeln!(text, "dwell {}", windows.dwell());
        for window in windows.list() {
            let _ = writeln!(text, "window {} {}", window.opening, window.closing);
        }
    }
    for (number, axis) in sheet.job.entered() {
        let is_still = matches!(axis.target, Target::Fixed(_));
        let wanted = |kind: WordKind| kind != WordKind::SecondWeight && !(is_still && kind == WordKind::TargetVelocity);
        let mut entries: Vec<(String, String)> = axis
            .entries()
            .filter(|&(kind, _)| wanted(kind))
            .map(|(kind, value)| (kind.name().into(), value.to_string()))
            .collect();
        entries.push(("target".into(), if is_still { "still" } else { "moving" }.into()));
        text += &axis_text(number, entries, axis.damping);
    }
    text + &notes_text(sheet.rounded())
}

/// Either kind of sheet in the form of the reference.
fn setup_text(setup: &Setup) -> String {
    let sheet = match setup {
        Setup::Job(sheet) => return job_text(sheet),
        Setup::Tour(sheet) => sheet,
    };
    let mut text = String::new();
    for (number, axis) in sheet.tour.entered() {
        let entries = [
            (WordKind::HalfPeriod, axis.half_period.to_string()),
            (WordKind::SpeedLimit, axis.speed_limit.to_string()),
            (WordKind::AccelerationLimit, axis.acceleration_limit.to_string()),
            (WordKind::StartPosition, axis.start.to_string()),
        ];
        let entries = entries.into_iter().map(|(kind, value)| (kind.name().into(), value)).collect();
        text += &axis_text(number, entries, axis.damping);
    }
    for stop in &sheet.stops {
        let positions = sheet.tour.entered().map(|(number, _)| format!(" {}", stop.positions[number]));
        let _ = writeln!(text, "stop{} dwell {}", positions.collect::<String>(), stop.dwell);
    }
    text + &notes_text(sheet.rounded())
}

#[test]
fn good_sheets_come_to_what_the_reference_says() {
    let mut all = sheets("tests/sheets/good", "tests/sheets/good");
    all.extend(sheets("sheets", "tests/sheets/examples"));
    assert!(all.len() >= 19);
    for (name, text, expected) in all {
        let setup: Setup = text.parse().unwrap_or_else(|errors: SheetErrors| panic!("{name}: {errors}"));
        assert_eq!(setup_text(&setup), expected, "{name}");
    }
}

#[test]
fn wrong_sheets_are_told_whole_and_in_the_order_of_their_lines() {
    let all = sheets("tests/sheets/bad", "tests/sheets/bad");
    assert!(all.len() >= 7);
    for (name, text, expected) in all {
        let errors = text.parse::<Setup>().expect_err(&name);
        let told: String = errors.list().iter().map(|error| format!("error {error}\n")).collect();
        assert_eq!(told, expected, "{name}");
        assert_eq!(told, errors.to_string().lines().map(|line| format!("error {line}\n")).collect::<String>());
    }
}

/// Each entry by itself on a sheet that lacks the rest: what it is planned as, and what is said of
/// it.
#[test]
fn every_rounding_is_that_of_the_reference() {
    let drawn = fs::read_to_string(folder("tests/sheets/drawn.txt")).expect("drawn entries");
    for line in drawn.lines().filter(|line| !line.starts_with('#')) {
        let parts: Vec<&str> = line.split(" | ").collect();
        let [tick, unit, name, value, planned, said] = parts[..] else { panic!("{line}") };
        let sheet = sheet_with(tick, unit, name, value).unwrap_or_else(|errors| panic!("{line}: {errors}"));
        let kind = kind_of(name);
        let axis = sheet.job.axes[0].expect("axis 0");
        let found = axis.entries().find(|&(entry, _)| entry == kind).map(|(_, value)| value.to_string());
        assert_eq!(found.as_deref(), Some(planned), "{line}");
        let before_sway = |told: String| told.split("; ").next().map(String::from);
        let told: Vec<String> = sheet.rounded().iter().filter_map(|rounded| before_sway(rounded.to_string())).collect();
        let expected = if said == "-" { Vec::new() } else { vec![format!("line 4: axis 0: {said}")] };
        assert_eq!(told, expected, "{line}");
    }
}

/// The number of an axis that a name stands for.
fn kind_of(name: &str) -> WordKind {
    match name {
        "period" | "frequency" | "swings" => WordKind::HalfPeriod,
        "second period" | "second frequency" | "second swings" => WordKind::SecondHalfPeriod,
        name => *ALL.iter().find(|kind| kind.name() == name).expect("a name of an entry"),
    }
}

/// The numbers of an axis.
const ALL: [WordKind; 10] = [
    WordKind::HalfPeriod,
    WordKind::SecondHalfPeriod,
    WordKind::SpeedLimit,
    WordKind::AccelerationLimit,
    WordKind::StartPosition,
    WordKind::StartVelocity,
    WordKind::TargetPosition,
    WordKind::TargetVelocity,
    WordKind::TargetAcceleration,
    WordKind::TargetTick,
];

/// A sheet whose only entry in a crew's unit is on line 4.
fn sheet_with(tick: &str, unit: &str, name: &str, value: &str) -> Result<Sheet, SheetErrors> {
    let others = ALL.iter().filter(|&&kind| kind != kind_of(name) && kind != WordKind::SecondHalfPeriod);
    let others: String = others.map(|kind| format!("{} 1\n", kind.name())).collect();
    format!("tick {tick}\nunit {unit}\naxis 0\n{name} {value}\narrival earliest\ntarget moving\nweight 128\n{others}")
        .parse()
}
