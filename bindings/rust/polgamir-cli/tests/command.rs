//! The command `polgamir`: what each of its commands prints and draws.

mod common;

use std::fs;

use common::command::{printed, run, run_with, scratch, sheet, told};
use common::{changed_case_c, folder, CASE_C_TABLE};

#[test]
fn plan_prints_the_arrival_and_aligned_columns() {
    let expected = "\
arrival 4

axis 0: position 0 to 1 units, speed up to 0.3359375 of 10 units/tick, acceleration up to 0.3359375 of 1 units/tick²
Jerk and end stops are not limited.

in fine steps, 1/256 unit

      axis 0
tick  position  velocity  acceleration
   0         0         0            86
   1        43        86            -1
   2       129        85             0
   3       214        85           -85
   4       256         0             0
";
    assert_eq!(printed(&run(&["plan", &sheet("case-c")])), (expected.into(), Some(0)));
}

#[test]
fn plan_prints_units() {
    let (text, status) = printed(&run(&["plan", "--units", &sheet("case-c")]));
    assert_eq!(status, Some(0));
    assert!(text.contains("\nJerk and end stops are not limited.\n\nin units\n\n      axis 0\n"), "{text}");
    assert!(text.contains("\n   1  0.16796875  0.33593750   -0.00390625\n"), "{text}");
}

#[test]
fn plan_prints_as_the_table_program() {
    assert_eq!(printed(&run(&["plan", "--plain", &sheet("case-c")])), (CASE_C_TABLE.into(), Some(0)));
    let text = fs::read(sheet("case-c")).expect("the sheet of case C");
    assert_eq!(printed(&run_with(&["plan", "-", "--plain"], &text)), (CASE_C_TABLE.into(), Some(0)));
    let refused = printed(&run(&["plan", "--plain", &sheet("too-soon")]));
    assert_eq!(refused, ("refused 8 place 0 axes 1 arrival 0\n".into(), Some(1)));
}

/// A long table shows its first and last rows, and all of them where they are asked for.
#[test]
fn plan_prints_the_first_and_the_last_rows() {
    let (text, status) = printed(&run(&["plan", &sheet("common-arrival")]));
    assert_eq!(status, Some(0));
    let lines: Vec<&str> = text.lines().collect();
    assert_eq!(lines[0], "arrival 39");
    assert!(lines[2].starts_with("axis 0 pan: position ") && lines[3].starts_with("axis 1 tilt: position "), "{text}");
    assert_eq!(lines[8], "      axis 0 pan                        axis 1 tilt");
    assert_eq!(lines[14], "  ..  32 rows more: --all prints them");
    assert_eq!(lines.len(), 10 + 4 + 1 + 4);
    let (all, _) = printed(&run(&["plan", "--all", &sheet("common-arrival")]));
    let all: Vec<&str> = all.lines().collect();
    assert_eq!(all.len(), 10 + 40);
    assert!(all[9..].iter().all(|line| line.len() == all[9].len()), "{all:?}");
    assert!(lines[..14].iter().chain(&lines[15..]).all(|line| all.contains(line)));
}

/// A head that starts away from its target goes past its start: by hand, from velocity −3 by one a
/// tick, it turns at −4.5 after rows at −2.5, −4 and −4.5.
#[test]
fn plan_prints_how_far_an_axis_goes() {
    let away = changed_case_c("start velocity       0", "start velocity -3").replace("arrival 4", "arrival earliest");
    let (text, _) = printed(&run_with(&["plan", "-"], away.as_bytes()));
    assert!(text.contains("\naxis 0: position -4.5 to 1 units, "), "{text}");
    let scaled = format!("tick 0.5\nunit 2 mm\n{away}");
    let (text, _) = printed(&run_with(&["plan", "-"], scaled.as_bytes()));
    assert!(text.contains("\naxis 0: position -9 to 2 mm, speed up to "), "{text}");
}

/// A file of job words is planned, drawn and turned into words as its sheet is.
#[test]
fn job_words_are_taken_for_a_sheet() {
    let job = folder("jobs").join("common-arrival.job").to_str().expect("letters").to_string();
    let expected = fs::read_to_string(folder("jobs").join("common-arrival.txt")).expect("its text");
    assert_eq!(printed(&run(&["plan", "--plain", &job])), (expected.clone(), Some(0)));
    let text = run(&["words", &job]).stdout;
    assert_eq!(text, run(&["words", &sheet("common-arrival")]).stdout);
    assert_eq!(printed(&run_with(&["plan", "--plain", "-"], &text)), (expected, Some(0)));
    assert!(printed(&run(&["plot", "-o", "-", &job])).0.starts_with("<svg "));

    let refused = printed(&run(&["plan", folder("jobs").join("too-soon.job").to_str().expect("letters")]));
    assert!(refused.0.contains("\nWrite `arrival 4` or `arrival earliest`.\n"), "{}", refused.0);
    assert!(refused.0.contains("\n    axis 0: the acceleration limit by 1 to 2\n"), "{}", refused.0);
    assert_eq!(
        told(&run_with(&["plan", "-"], b"10000001 30000000")),
        "polgamir: standard input: word 1: expected kind 2 (arrival), found kind 3 (30000000)\n"
    );
}

#[test]
fn words_are_hexadecimal_or_bytes() {
    let expected = "\
10000001 20000004
30000000 40000000 5000000A 60000001 70000000 80000080 90000001 A0000000
F0000000
";
    assert_eq!(printed(&run(&["words", &sheet("case-c")])), (expected.into(), Some(0)));

    let bytes = run(&["words", "--bytes", &sheet("case-c")]).stdout;
    let words: Vec<u8> = common::CASE_C_WORDS.iter().flat_map(|word| word.to_le_bytes()).collect();
    assert_eq!(bytes, words);

    let file = scratch("case-c.job");
    let output = run(&["words", "--bytes", "-o", &file, &sheet("case-c")]);
    assert_eq!(printed(&output), (String::new(), Some(0)));
    assert_eq!(fs::read(file).expect("the file written"), words);
}

/// Words hold a weight; where the sheet has what the tap test shows, the command says which.
#[test]
fn words_say_the_weight_that_they_take() {
    let text = changed_case_c("weight               128", "shrinks 0.5");
    let output = run_with(&["words", "-"], text.as_bytes());
    let (words, status) = printed(&output);
    assert!(status == Some(0) && words.contains(" 80000055 "), "{words}");
    let note = "polgamir: axis 0: the words have weight 85 for `shrinks 0.5`\n";
    assert_eq!(String::from_utf8_lossy(&output.stderr), note);
    let text = changed_case_c("weight               128", "shrinks 1.5");
    let expected = "line 7: axis 0: shrinks 1.5, expected a number above 0 and at most 1";
    assert_eq!(told(&run_with(&["words", "-"], text.as_bytes())), format!("polgamir: standard input: {expected}\n"));
}

#[test]
fn show_reads_words_back() {
    let text = run(&["words", &sheet("six-axes")]).stdout;
    let bytes = run(&["words", "--bytes", &sheet("six-axes")]).stdout;
    let (shown, status) = printed(&run_with(&["show", "-"], &text));
    assert_eq!(status, Some(0));
    for (arguments, input) in
        [(["show", "-", ""], &bytes), (["show", "--bytes", "-"], &bytes), (["show", "-", "--hex"], &text)]
    {
        let arguments: Vec<&str> = arguments.into_iter().filter(|argument| !argument.is_empty()).collect();
        assert_eq!(printed(&run_with(&arguments, input)), (shown.clone(), Some(0)));
    }
    assert_eq!(run_with(&["words", "-"], shown.as_bytes()).stdout, text);
    let commented = "# case C\n0x10000001 20000004 30000000 40000000 5000000a 60000001 70000000 80000080 90000001 \
        a0000000 f0000000";
    let (shown, _) = printed(&run_with(&["show", "-"], commented.as_bytes()));
    assert_eq!(printed(&run_with(&["plan", "--plain", "-"], shown.as_bytes())).0, CASE_C_TABLE);
}

/// Positions of two words stand on their axis's line, and are read back.
#[test]
fn long_positions_have_two_words() {
    let text = run(&["words", &sheet("long-rail")]).stdout;
    let expected = "10000003 20000000\n\
        E0000012 3A05F200 40000000 50000FA0 6000003C 70000012 80000074 E0000012 9A0C0C80 A0000000\n\
        EFFFFFFE 3E1E5D00 40000000 50000384 60000014 70000018 80000079 EFFFFFFE 9E1F2050 A0000096 B0000000 C000003C\n\
        F0000000\n";
    assert_eq!(String::from_utf8_lossy(&text), expected);
    let (shown, status) = printed(&run_with(&["show", "-"], &text));
    assert_eq!(status, Some(0));
    assert!(shown.contains("start position      5000000000 "), "{shown}");
    assert_eq!(run_with(&["words", "-"], shown.as_bytes()).stdout, text);
    let short = expected.replace("EFFFFFFE 3", "E0000000 3").replace("3E1E5D00", "30000005");
    assert_eq!(
        told(&run_with(&["plan", "-"], short.as_bytes())),
        "polgamir: standard input: word 12: expected no word of kind 14 before position 5, which fits a single word\n"
    );
}

#[test]
fn show_tells_the_word_at_fault() {
    let told_of = |input: &[u8]| told(&run_with(&["show", "-"], input));
    assert_eq!(
        told_of(b"10000001 20000004 40000000"),
        "polgamir: standard input: word 2: expected kind 3 (start position) or kind 14 (high part of a position), \
         found kind 4 (40000000)\n"
    );
    assert_eq!(
        told_of(b"10000001\n2000000G"),
        "polgamir: standard input: line 2: expected a word of 1 to 8 hexadecimal digits, found `2000000G`\n"
    );
    assert_eq!(told_of(&[1, 0, 0, 0x10, 5]), "polgamir: standard input: word 1: expected four bytes, found 1\n");
    assert_eq!(told_of(b""), "polgamir: standard input: word 0: expected kind 1 (axis mask), found no more words\n");
}

#[test]
fn show_tells_what_a_text_is() {
    let expected =
        "a set-up sheet: `polgamir plan` plans a job, `polgamir tour` a tour, `polgamir words` writes job words";
    let told_of = |input: &[u8]| told(&run_with(&["show", "-"], input));
    let text = fs::read(sheet("case-c")).expect("the sheet of case C");
    assert_eq!(told_of(&text), format!("polgamir: standard input: expected job words, found {expected}\n"));
    for arguments in [&["plan", "--plain"][..], &["plan"], &["plan", "--units"]] {
        let table = run(&[arguments, &[&sheet("case-c")]].concat()).stdout;
        assert_eq!(told_of(&table), "polgamir: standard input: expected job words, found a printed table\n");
    }
    for options in [&["tour", "--plain"][..], &["tour"]] {
        let tour = run(&[options, &[&sheet("plot-of-stems")]].concat()).stdout;
        assert_eq!(told_of(&tour), "polgamir: standard input: expected job words, found a printed tour\n");
    }
    let refusal = run(&["plan", &sheet("too-soon")]).stdout;
    assert_eq!(told_of(&refusal), "polgamir: standard input: expected job words, found a printed refusal\n");
}

#[test]
fn plot_draws_a_picture() {
    for (name, panels) in [("case-c", 3), ("pan-tilt-stem", 8), ("six-axes", 23)] {
        let file = scratch(name) + ".svg";
        assert_eq!(printed(&run(&["plot", &sheet(name), "-o", &file])), (String::new(), Some(0)));
        let picture = fs::read_to_string(&file).expect("the picture");
        assert!(picture.starts_with("<svg xmlns=") && picture.ends_with("</svg>\n"));
        assert_eq!(picture.matches("<clipPath").count(), panels, "{name}");
        assert!(!picture.contains("NaN") && !picture.contains("inf"), "{name}");
    }
}

/// Axis names stay whole in pictures of six axes, whatever stands beside them.
#[test]
fn axis_names_stay_readable() {
    let text = fs::read_to_string(sheet("six-axes")).expect("a sheet");
    let text = text.replace("weight               120", "peaks 41.5 36.2\nsecond half period 19");
    let text = text.replace("axis 0 pan", "axis 0 pan of the northern mast");
    let (picture, status) = printed(&run_with(&["plot", "-o", "-", "-"], text.as_bytes()));
    assert_eq!(status, Some(0));
    assert!(!picture.contains('…'), "{picture}");
    for text in [
        ">axis 0 pan of the northern mast</text>",
        ">axis 5 focus</text>",
        ">half period 24, peaks 41.5 36.2 (weight 119), second</text>",
    ] {
        assert!(picture.contains(text), "{text}");
    }
}

/// The texts of a picture: title, numbers, remarks, caption.
fn texts_of(picture: &str) -> Vec<&str> {
    picture.lines().filter(|line| line.starts_with("<text") || line.starts_with("<desc")).collect()
}

/// The pictures of the repository are what the command draws.
#[test]
fn pictures_are_up_to_date() {
    for name in [
        "pan-tilt-stem",
        "cable-carriage",
        "damped-carriage",
        "common-arrival",
        "plot-of-stems",
        "laser-windows",
        "jointed-pole",
    ] {
        let picture = fs::read_to_string(folder("docs/pictures").join(name).with_extension("svg")).expect("a picture");
        let (drawn, _) = printed(&run(&["plot", "-o", "-", &sheet(name)]));
        assert_eq!(texts_of(&picture), texts_of(&drawn), "{name}");
        assert!(texts_of(&picture).len() > 20, "{name}");
    }
}
