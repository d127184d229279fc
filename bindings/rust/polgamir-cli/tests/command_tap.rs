//! `polgamir tap`: from a record to the lines of a sheet. `sheets/pan-tap.csv` was made of a pole
//! whose half period is 0.595 s and each of whose swings is 0.8 of the one before, with noise, an
//! offset and a drift, from 0.84 s on.

mod common;

use std::fs;

use common::command::{printed, run, run_with, scratch, told};
use common::folder;
use polgamir::sheet::Sheet;

/// The record.
fn record() -> String {
    folder("sheets").join("pan-tap.csv").display().to_string()
}

/// What is printed of a record.
fn lines_of(arguments: &[&str], text: &str) -> String {
    let (text, status) = printed(&run_with(arguments, text.as_bytes()));
    assert_eq!(status, Some(0));
    text
}

/// The value and the ends of an entry, as they are printed.
fn entry(printed: &str, name: &str) -> [f64; 3] {
    let line = printed.lines().find(|line| line.starts_with(name)).unwrap_or_else(|| panic!("{name}: {printed}"));
    let numbers: Vec<f64> = line.split([' ', ';']).filter_map(|word| word.parse().ok()).collect();
    numbers.try_into().unwrap_or_else(|numbers| panic!("{numbers:?}"))
}

/// The lines can be pasted into an axis, and the truth lies within their ends.
#[test]
fn the_lines_of_a_record_are_lines_of_a_sheet() {
    let (lines, status) = printed(&run(&["tap", &record()]));
    assert_eq!(status, Some(0));
    for (name, truth) in [("half period", 0.595), ("shrinks", 0.8)] {
        let [value, low, high] = entry(&lines, name);
        assert!(low <= truth && truth <= high && low <= value && value <= high, "{lines}");
        assert!(high - low < 0.01 * truth, "{lines}");
    }
    let head = "tick 20 ms\narrival earliest\naxis 0 pan\n";
    let rest =
        "speed limit 40\nacceleration limit 2\nstart position 0\nstart velocity 0\ntarget still\ntarget position 900\n";
    let sheet: Sheet = format!("{head}{lines}{rest}").parse().expect("a good sheet");
    let axis = sheet.job.axes[0].expect("axis 0");
    assert_eq!((axis.half_period, axis.damping.weight()), (30, Some(113)));
    assert_eq!(sheet.rounded().len(), 1);
    assert!(sheet.job.plan().is_ok());
}

/// What was used and what was left out is said in comments.
#[test]
fn what_was_used_and_left_out_is_said() {
    let (lines, _) = printed(&run(&["tap", &record()]));
    let comments: Vec<&str> = lines.lines().filter(|line| line.starts_with('#')).collect();
    assert!(comments[0].starts_with("# pan-tap: 400 samples over 7.98 s. Used: 5."), "{lines}");
    assert!(comments[1].starts_with("# Left out: before 1."), "{lines}");
    assert_eq!((comments.len(), lines.lines().count()), (2, 4), "{lines}");
}

/// The sign, an offset, a slope, the unit of the time and the separators change nothing.
#[test]
fn a_record_may_be_turned_over_moved_and_written_otherwise() {
    let text = fs::read_to_string(record()).expect("the record");
    let rows: Vec<(f64, f64)> = text
        .lines()
        .filter_map(|line| line.split_once(','))
        .filter_map(|(time, value)| Some((time.parse().ok()?, value.parse().ok()?)))
        .collect();
    let [half, ratio] = ["half period", "shrinks"].map(|name| entry(&lines_of(&["tap", "-"], &text), name)[0]);
    let turned =
        rows.iter().map(|(time, value)| format!("{:.3};{}\n", time / 1000.0, 7.0 - 3.0 * value + 0.2 * time / 1000.0));
    let turned: String = turned.map(|line| line.replace('.', ",")).collect();
    let lines = lines_of(&["tap", "-"], &turned);
    let near = |one: f64, other: f64| (one - other).abs() < 2e-4;
    assert!(near(entry(&lines, "half period")[0], half) && near(entry(&lines, "shrinks")[0], ratio), "{lines}");
    let alone: String = rows.iter().map(|(_, value)| format!("{value}\n")).collect();
    let lines = lines_of(&["tap", "--rate", "50", "-"], &alone);
    assert!((entry(&lines, "half period")[0] - half).abs() < 2e-3, "{lines}");
    let three: String = rows.iter().map(|(time, value)| format!("{time} 5 {value} 5\n")).collect();
    let lines = lines_of(&["tap", "--column", "3", "-"], &format!("ms x tilt z\n{three}"));
    assert!(near(entry(&lines, "half period")[0], half) && lines.contains(", column 3 (tilt): 400"), "{lines}");
}

/// The texts of a picture.
fn texts(picture: &str) -> Vec<&str> {
    let ends = picture.lines().filter(|line| line.starts_with("<text")).filter_map(|line| line.split_once('>'));
    ends.map(|(_, text)| text).collect()
}

/// The picture, which also stands in the sheet's page, whose texts are up to date.
#[test]
fn the_picture_shows_the_fitted_swing() {
    let file = scratch("tap.svg");
    let (lines, status) = printed(&run(&["tap", &record(), "-o", &file]));
    let picture = fs::read_to_string(&file).expect("a picture");
    assert_eq!((lines.lines().count(), status), (4, Some(0)));
    for text in [
        ">fitted swing<",
        ">record<",
        ">drift<",
        ">left out<",
        ">left by the fit<",
        ">seconds<",
        "pan-tap: half period 0.59",
    ] {
        assert!(picture.contains(text), "{text}");
    }
    let stored = fs::read_to_string(folder("docs").join("tap.svg")).expect("the picture of the sheet's page");
    assert_eq!(texts(&stored), texts(&picture));
    assert_eq!(printed(&run(&["tap", &record(), "-o", "-"])), (picture, Some(0)));
    let written = run(&["tap", &record(), "-o", "/no/such/folder/tap.svg"]);
    assert_eq!(written.status.code(), Some(3));
}

#[test]
fn wrong_records_and_wrong_usage_end_with_2() {
    let told_of = |arguments: &[&str], text: &str| {
        let done = run_with(arguments, text.as_bytes());
        assert_eq!(done.status.code(), Some(2), "{arguments:?}");
        told(&done)
    };
    let column: String = (0..40).map(|index| format!("{index}\n")).collect();
    for (arguments, text, expected) in [
        (&["tap"][..], "", "expected a record: times and deflections, a line for each sample"),
        (
            &["tap", "-", "--rate", "0"],
            "",
            "expected the samples of a second, a number above 0, after `--rate`, found `0`",
        ),
        (&["tap", "-", "--rate"], "", "expected a value after `--rate`"),
        (&["tap", "-", "--column", "x"], "", "expected a column, from 1, after `--column`, found `x`"),
        (&["tap", "-", "--units"], "", "`--units` is no option of this command"),
        (&["tap", "-", "-"], "", "expected one record, found also `-`"),
        (&["tap", "-"], "", "standard input: expected at least 16 samples, found 0"),
        (
            &["tap", "-"],
            &column,
            "expected a time before each deflection, or `--rate` with the samples of a second, found one column",
        ),
        (&["tap", "-", "--rate", "9"], &column, "expected a swing, found nothing that stands out of the noise"),
    ] {
        let told = told_of(arguments, text);
        assert!(told.contains(expected), "{arguments:?}: {told}");
    }
}
