//! Sheets in a crew's units, by the command. What is expected stands in `tests/sheets` and `jobs`,
//! made by the reference in Python.

mod common;

use std::fs;

use common::command::{printed, run, run_with, scratch, sheet, told};
use common::folder;

/// What is said of the entries of a sheet in `sheets/` that are rounded.
fn notes(name: &str) -> Vec<String> {
    let path = folder("tests/sheets/examples").join(name).with_extension("txt");
    let text = fs::read_to_string(path).expect("a text");
    text.lines().filter_map(|line| line.strip_prefix("note ")).map(String::from).collect()
}

/// The cells are those of the reference, and every form says which entries were rounded.
#[test]
fn a_sheet_in_degrees_is_planned_as_the_reference_plans_it() {
    let text = fs::read_to_string(folder("jobs").join("stem-in-degrees.txt")).expect("a text");
    let plain = run(&["plan", "--plain", &sheet("stem-in-degrees")]);
    assert_eq!(printed(&plain), (text, Some(0)));
    let expected = notes("stem-in-degrees");
    assert_eq!(expected.len(), 3);
    let all: [&[&str]; 6] =
        [&["plan"], &["plan", "--plain"], &["plan", "--csv"], &["plan", "--json"], &["words"], &["convert"]];
    for arguments in all {
        let done = run(&[arguments, &[&sheet("stem-in-degrees")]].concat());
        let said = String::from_utf8_lossy(&done.stderr).into_owned() + &printed(&done).0;
        assert_eq!(done.status.code(), Some(0), "{arguments:?}");
        for note in &expected {
            assert!(said.contains(note), "{arguments:?}: {note}: {said}");
        }
    }
}

/// The report says the same words.
#[test]
fn a_report_lists_the_entries_that_were_rounded() {
    let file = scratch("rounded.html");
    assert_eq!(run(&["report", &sheet("stem-in-degrees"), "-o", &file]).status.code(), Some(0));
    let page = fs::read_to_string(&file).expect("a page");
    let page = page.replace("&#39;", "'").replace("&apos;", "'").replace("&quot;", "\"");
    for note in notes("stem-in-degrees") {
        assert!(page.contains(&note), "{note}");
    }
}

/// Each thing that is wrong stands on a line of its own, after the name of the file.
#[test]
fn all_that_is_wrong_is_told_at_once() {
    for name in ["misspelt", "wrong-measures", "tour"] {
        let path = folder("tests/sheets/bad").join(name);
        let text = fs::read_to_string(path.with_extension("txt")).expect("a text");
        let file = path.with_extension("sheet").display().to_string();
        let expected: String =
            text.lines().map(|line| line.replace("error line", &format!("polgamir: {file}: line")) + "\n").collect();
        assert_eq!(told(&run(&["plan", &file])), expected);
    }
}

/// A number that the planner refuses is told as it was entered too.
#[test]
fn a_refused_number_is_told_as_it_was_entered() {
    let text = fs::read_to_string(sheet("stem-in-degrees")).expect("a sheet");
    let refused = |from: &str, to: &str| {
        let text = text.replacen("unit 0.01 degree", "unit 0.0001 degree", 1).replacen(from, to, 1);
        let (printed, status) = printed(&run_with(&["plan", "-"], text.as_bytes()));
        assert_eq!(status, Some(1), "{printed}");
        printed
    };
    let long = refused("tick 20 ms", "tick 2 ms");
    let line =
        "line 8: pan: half period 298 (entered as `swings 10 in 11.9 s`; a longer `tick` would do), expected 0 to 256";
    assert!(long.contains(line), "{long}");
    let fast = refused("          20 degree/s\n", " 9000 degree/s\n");
    let line = "speed limit 1800000 (entered as `speed limit 9000 degree/s`; a coarser `unit` or a shorter `tick` \
        would do), expected 1 to";
    assert!(fast.contains(line), "{fast}");
}
