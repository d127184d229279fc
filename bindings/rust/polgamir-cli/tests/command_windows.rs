//! What the command says and draws of windows.

mod common;

use common::changed_case_c;
use common::command::{printed, run, run_with, sheet, told};

/// What the command prints of case C with lines after its arrival and another tick asked for.
fn refused(lines: &str) -> String {
    let (text, status) = printed(&run_with(&["plan", "-"], changed_case_c("arrival 4", lines).as_bytes()));
    assert_eq!(status, Some(1));
    text
}

#[test]
fn refusals_name_the_windows_at_fault() {
    // The line before the last one, which has the refusal's number.
    let last =
        |lines: &str| refused(lines).lines().rev().nth(1).map(|line| line.trim().into()).unwrap_or_else(String::new);
    assert_eq!(last("arrival 4\ndwell 0"), "line 4: dwell 0, expected a `window` beside it");
    assert_eq!(last("arrival 4\ndwell 4097\nwindow 0 9"), "line 4: dwell 4097, expected 0 to 4096");
    assert_eq!(last("arrival 4\ndwell 0\nwindow 9 9"), "line 5: window 9 9, expected a closing above 9");
    assert_eq!(
        last("arrival 4\ndwell 0\nwindow 0 9\nwindow 8 12"),
        "line 6: window 8 12, expected an opening from 9 on, where the window before it closes"
    );
    let many = format!(
        "arrival 4\ndwell 0{}",
        (0..34).map(|k| format!("\nwindow {} {}", 2 * k, 2 * k + 1)).collect::<String>()
    );
    assert_eq!(last(&many), "line 37: the first window too many");
    let expected = "\
No plan: every axis can arrive at tick 4, but it fits no window. Earliest: tick 7.
Write `arrival 7` or `arrival earliest` in line 3, or look whether the site permits \
other windows or a shorter dwell does.
  line 5: window 7 9
  line 4: dwell 1
On the set-up sheet look at \"read the arrival tick before the first sighting\". [refusal 8]
";
    assert_eq!(refused("arrival 4\ndwell 1\nwindow 7 9"), expected);
    let text = refused("arrival earliest\ndwell 0\nwindow 0 1");
    assert!(
        text.starts_with(
            "No plan: each axis can arrive, but no tick from 1 to 4096 suits all of them and fits a window.\n"
        ),
        "{text}"
    );

    let text = changed_case_c("arrival 4", "arrival 4\ndwell 0\nwindow 0 9");
    assert_eq!(
        told(&run_with(&["words", "-"], text.as_bytes())),
        "polgamir: standard input: line 5: expected no windows, for job words have none\n"
    );
}

/// A sheet that begins with its windows is known as one.
#[test]
fn show_tells_a_sheet_with_windows() {
    let text = told(&run_with(&["show", "-"], b"dwell 5\nwindow 0 9\n"));
    assert!(text.starts_with("polgamir: standard input: expected job words, found a set-up sheet: "), "{text}");
}

#[test]
fn pictures_shade_the_windows() {
    let (picture, status) = printed(&run(&["plot", "-o", "-", &sheet("laser-windows")]));
    assert_eq!(status, Some(0));
    assert!(picture.contains("laser-windows: arrival at tick 150, the earliest that fits a window"));
    assert_eq!(picture.matches("fill=\"#FCEFC7\"").count(), 1 + 3 * 4, "a sample, and three windows in each panel");
}
