//! The command `polgamir`: its options, wrong input, output that cannot be
//! written, and the exit statuses.

mod common;

use std::fs;
use std::process::Command;

use common::command::{printed, run, run_with, scratch, sheet, told, told_with};
use common::{changed_case_c, CASE_C_TABLE};

/// `-o -` is standard output, and `--` ends the options.
#[test]
fn usual_options_are_understood() {
    let (picture, status) = printed(&run(&["plot", "-o", "-", &sheet("case-c")]));
    assert!(status == Some(0) && picture.starts_with("<svg ") && picture.ends_with("</svg>\n"));
    assert_eq!(printed(&run(&["plan", "--plain", "-o", "-", "--", &sheet("case-c")])), (CASE_C_TABLE.into(), Some(0)));
    let file = scratch("case-c.txt");
    assert_eq!(printed(&run(&["plan", "--plain", "-o", &file, &sheet("case-c")])), (String::new(), Some(0)));
    assert_eq!(fs::read_to_string(file).expect("the table"), CASE_C_TABLE);

    let text = told(&run(&["plan", "--", "--plain"]));
    assert!(text.starts_with("polgamir: --plain: "), "{text}");
}

/// Output that cannot be written has a status of its own, and a closed standard output is said.
#[test]
fn failed_writes_end_with_3() {
    let nowhere = scratch("no-such-folder/x.svg");
    for arguments in [["plot", "-o", &nowhere, &sheet("case-c")], ["words", "-o", &nowhere, &sheet("case-c")]] {
        assert!(told_with(&run(&arguments), 3).contains("x.svg: "));
    }
    let with_output = |redirection: &str| {
        let line = format!("exec \"$0\" plan \"$1\" {redirection}");
        let command = env!("CARGO_BIN_EXE_polgamir");
        let output = Command::new("sh").args(["-c", &line, command, &sheet("case-c")]).output().expect("a shell");
        (String::from_utf8_lossy(&output.stderr).into_owned(), output.status.code())
    };
    assert_eq!(with_output(">&-"), ("polgamir: standard output: it is closed\n".into(), Some(3)));
    assert_eq!(with_output(">/dev/null"), (String::new(), Some(0)));
    assert_eq!(with_output("1<>/dev/null"), (String::new(), Some(0)));
    let (told, status) = with_output(">/dev/full");
    assert!(status == Some(3) && told.starts_with("polgamir: standard output: "), "{told}");
}

#[test]
fn wrong_sheets_end_with_2() {
    let wrong = changed_case_c("speed limit          10", "speed limit          ten");
    for command in ["plan", "words"] {
        assert_eq!(
            told(&run_with(&[command, "-"], wrong.as_bytes())),
            "polgamir: standard input: line 8: expected a whole number of units per tick from 1 to 1048576, or one as \
             in `60 degree/s`, after `speed limit`, found `ten`\n"
        );
    }
    let far = changed_case_c("target position      1", "target position      17179869184");
    assert_eq!(
        told(&run_with(&["words", "-"], far.as_bytes())),
        "polgamir: standard input: line 13: expected a number from -17179869184 to 17179869183 after `target \
         position`, for its job words, found `17179869184`\n"
    );
    assert!(told(&run(&["plan", &scratch("no-such.sheet")])).contains("no-such.sheet: "));
    assert!(told(&run_with(&["plan", "-"], &[0xB7])).contains("utf-8"));
    assert!(told(&run_with(&["plan", "-"], &[0xFF, 0xFE, b'a', 0])).contains("this is text in utf-16"));
}

#[test]
fn wrong_usage_ends_with_2() {
    let case_c = sheet("case-c");
    for arguments in [
        &[][..],
        &["draw"],
        &["plan"],
        &["plan", &case_c, &case_c],
        &["plan", "--bytes", &case_c],
        &["plan", "--plain", "--units", &case_c],
        &["plan", "--cells", "many", &case_c],
        &["plan", "--cells", "73747", &case_c],
        &["plan", "--cells", "99999999999999999999", &case_c],
        &["plan", &case_c, "--cells"],
        &["words", "--cells", "5", &case_c],
        &["show", "--plain", &case_c],
        &["plot", &case_c],
        &["report", &case_c],
        &["tour"],
        &["tour", "--plain", "--units", &case_c],
        &["plan", "--tables", &case_c],
        &["plot", &case_c, "-o", "x", "-o", "y"],
    ] {
        let text = told(&run(arguments));
        let expected = match arguments {
            [] | ["draw"] => "; `polgamir --help` lists what can be asked\n".into(),
            [command, ..] => format!("; `polgamir {command} --help` lists its options\n"),
        };
        assert!(text.ends_with(&expected), "{arguments:?}: {text}");
    }
}

/// Each command has a page of its own, of one screen, and the first page lists them.
#[test]
fn each_command_has_a_page_of_help() {
    let (all, status) = printed(&run(&["--help"]));
    assert_eq!(status, Some(0));
    assert!(all.contains("Exit status"), "{all}");
    assert_eq!((printed(&run(&["help"])), printed(&run(&["-h"]))), ((all.clone(), Some(0)), (all.clone(), Some(0))));
    let listed = all.lines().filter_map(|line| line.strip_prefix("  ")?.split(' ').next());
    let commands: Vec<&str> = listed.filter(|word| !word.is_empty()).collect();
    assert!(commands.len() >= 7, "{commands:?}");
    for command in commands {
        let (page, status) = printed(&run(&[command, "--help"]));
        assert_eq!((status, printed(&run(&["help", command])).0), (Some(0), page.clone()));
        assert!(page.contains(&format!("Usage: polgamir {command} ")) && page != all, "{page}");
        assert!(page.lines().count() <= 24 && page.lines().all(|line| line.chars().count() <= 80), "{page}");
    }
    assert!(told(&run(&["help", "draw"])).contains("found `draw`"));
    assert_eq!(printed(&run(&["--version"])), (concat!("polgamir ", env!("CARGO_PKG_VERSION"), "\n").into(), Some(0)));
}
