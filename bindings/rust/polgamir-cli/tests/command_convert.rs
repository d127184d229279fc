//! The command's converter of old jobs. The numbers are those of field cases F and G.

mod common;

use std::fs;

use common::command::{printed, run, run_with, scratch, sheet};
use common::{case_f, changed_case_c, CASE_C_TABLE};
use polgamir::convert;

/// The command takes words or a sheet, and writes words.
#[test]
fn the_command_converts() {
    let bytes = |words: &[u32]| -> Vec<u8> { words.iter().flat_map(|word| word.to_le_bytes()).collect() };
    let file = scratch("converted.job");
    assert_eq!(
        printed(&run_with(&["convert", "--bytes", "-o", &file, "-"], &bytes(&case_f(39)))),
        (String::new(), Some(0))
    );
    assert_eq!(fs::read(file).expect("the words"), bytes(&convert(&case_f(39)).expect("a conversion")));

    let flying = "target flying\n  target velocity 3\n  target position 1";
    let old = changed_case_c("target               still\n  target position      1", flying);
    let done = run_with(&["convert", "-"], old.as_bytes());
    assert_eq!(
        String::from_utf8_lossy(&done.stderr),
        "polgamir: axis 0: the words have a moving target, of acceleration 0 at tick 4\n"
    );
    let (shown, status) = printed(&run_with(&["show", "-"], &done.stdout));
    assert_eq!(status, Some(0));
    let words: Vec<&str> = shown.split_whitespace().collect();
    assert!(words.windows(3).any(|three| three == ["target", "tick", "4"]), "{shown}");

    let (refused, status) =
        printed(&run_with(&["convert", "-"], old.replace("arrival 4", "arrival earliest").as_bytes()));
    assert!(status == Some(1) && refused.starts_with("No plan: ") && refused.ends_with(" [refusal 17]\n"), "{refused}");
    let copied = run(&["convert", &sheet("case-c")]);
    assert_eq!(printed(&run_with(&["plan", "--plain", "-"], &copied.stdout)), (CASE_C_TABLE.into(), Some(0)));
}
