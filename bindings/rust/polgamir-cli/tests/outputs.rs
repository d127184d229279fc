//! What `-o` leaves in a file: the answer, and of a refused job or tour the refusal, so
//! that no older answer stands there.

mod common;

use std::fs;
use std::process::Command;

use common::changed_case_c;
use common::command::{printed, run, run_with, scratch, sheet, told};

/// A file with an older answer in it.
fn older(name: &str) -> String {
    let file = scratch(name);
    fs::write(&file, "an older answer\n").expect("a file");
    file
}

/// What a refused sheet leaves in a file that had an older answer, and that the refusal is printed.
fn left(arguments: &[&str], name: &str, input: &str, number: u32) -> String {
    let file = older(name);
    let (text, status) = printed(&run_with(&[arguments, &["-", "-o", &file]].concat(), input.as_bytes()));
    assert_eq!(status, Some(1), "{arguments:?}: {text}");
    let plain = arguments.contains(&"--plain");
    assert!(
        if plain { text.starts_with("refused ") } else { text.ends_with(&format!(" [refusal {number}]\n")) },
        "{text}"
    );
    let left = fs::read_to_string(&file).expect("the file");
    assert!(!left.contains("older"), "{arguments:?}");
    left
}

/// Case E, on an axis with a name.
fn too_soon() -> String {
    changed_case_c("target position      1", "target position 4")
        .replace("arrival 4", "arrival 3")
        .replace("axis 0", "axis 0 pan")
}

const SENTENCE: &str = "No plan: pan cannot arrive at tick 3. Earliest: tick 4.";

#[test]
fn a_refused_job_leaves_its_refusal() {
    let sheet = too_soon();
    for arguments in [&["plan"][..], &["plan", "--all"], &["plan", "--units"]] {
        assert!(left(arguments, "refused.txt", &sheet, 8).starts_with(SENTENCE), "{arguments:?}");
    }
    let line = "refused 8 place 0 axes 1 arrival 0\n";
    assert_eq!(left(&["plan", "--plain"], "refused.txt", &sheet, 8), line);
    assert_eq!(left(&["plan", "--csv"], "refused.csv", &sheet, 8), line);
    let json = left(&["plan", "--json"], "refused.json", &sheet, 8);
    assert!(json.starts_with("{\n  \"polgamir\": ") && json.contains(SENTENCE), "{json}");
    let picture = left(&["plot"], "refused.svg", &sheet, 8);
    assert!(picture.starts_with("<svg ") && picture.contains(SENTENCE) && picture.contains("[refusal 8]"), "{picture}");
    let flying = changed_case_c("target               still\n", "target flying\ntarget velocity 2\n");
    let flying = flying.replace("arrival 4", "arrival earliest");
    assert!(left(&["convert"], "refused.job", &flying, 17).starts_with("No plan: "));
}

/// No compiler takes the C source of a refusal.
#[test]
fn a_refused_array_does_not_compile() {
    let source = scratch("refused.c");
    let text = left(&["plan", "--c-array"], "refused.c", &too_soon(), 8);
    assert!(text.starts_with("#error \"refused 8 place 0 axes 1 arrival 0: No plan: "), "{text}");
    let built = Command::new("cc").args(["-fsyntax-only", &source]).output().expect("a C compiler");
    assert!(!built.status.success() && String::from_utf8_lossy(&built.stderr).contains("cannot arrive at tick 3"));
}

/// The report of a refusal is a page that says it in words first, then the
/// sheet with its lines' numbers.
#[test]
fn the_report_of_a_refusal_says_it_first() {
    let page = left(&["report"], "refused.html", &too_soon(), 8);
    let body = page.split("<div class=\"refusal\">").nth(1).expect("the refusal");
    assert!(body.trim_start().starts_with(&format!("<p><b>{SENTENCE}</b></p>")), "{body}");
    assert!(page.find(SENTENCE) < page.find("refused 8 place 0 axes 1 arrival 0"), "{page}");
    for text in
        ["<li>pan: the acceleration limit by 1 to 2 (line 9)</li>", "[refusal 8]", "<i>9</i>  acceleration limit   1"]
    {
        assert!(page.contains(text), "{text}");
    }
    assert!(page.starts_with("<!DOCTYPE html>") && page.ends_with("</html>\n"));
}

#[test]
fn a_refused_tour_leaves_its_refusal() {
    let tour = fs::read_to_string(sheet("plot-of-stems")).expect("a sheet").replace("stop  3900", "stop  3000000000");
    let sentence = "No plan for the leg to stop 2 (line ";
    assert!(left(&["report"], "tour.html", &tour, 9).contains(sentence));
    assert!(left(&["plot"], "tour.svg", &tour, 9).contains(sentence));
    assert!(left(&["tour"], "tour.txt", &tour, 9).starts_with(sentence));
    assert!(left(&["tour", "--json"], "tour.json", &tour, 9).contains("\"refused\": 9,\n  \"place\": 2,"));
    assert!(left(&["tour", "--c-array"], "tour.c", &tour, 9).starts_with("#error \"refused 9 place 2 "));
    assert_eq!(left(&["tour", "--csv"], "tour.csv", &tour, 9), "refused 9 place 2 axes 1 arrival 0\n");
}

/// A sheet that cannot be read leaves the file alone and says that it is not its answer.
#[test]
fn a_wrong_sheet_says_that_the_file_is_older() {
    let file = older("older.html");
    let wrong = changed_case_c("speed limit          10", "speed limit ten");
    let text = told(&run_with(&["report", "-", "-o", &file], wrong.as_bytes()));
    assert!(
        text.contains("line 8: ") && text.contains("older.html is left as it was: it is not of this file"),
        "{text}"
    );
    assert_eq!(fs::read_to_string(file).expect("the file"), "an older answer\n");
}

/// A refusal that cannot be written is printed all the same, and the status says that
/// the file could not be written.
#[test]
fn a_refusal_that_cannot_be_written_is_printed() {
    let nowhere = scratch("no-such-folder/x.html");
    let output = run(&["report", &sheet("too-soon"), "-o", &nowhere]);
    let (text, status) = printed(&output);
    assert!(status == Some(3) && text.starts_with("No plan: "), "{text}");
    assert!(String::from_utf8_lossy(&output.stderr).contains("x.html: "));
}
