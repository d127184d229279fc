//! `polgamir verify` and `polgamir certify`, held to case C and case D as docs/METHOD.md prints
//! them.

mod common;

use std::fs;

use common::command::{printed, run, scratch, sheet};

/// Case C's rows as the method prints them.
const CASE_C: [[i64; 3]; 5] = [[0, 0, 86], [43, 86, -1], [129, 85, 0], [214, 85, -85], [256, 0, 0]];

/// A file of the scratch folder with some bytes; its name.
fn file(name: &str, bytes: impl AsRef<[u8]>) -> String {
    let path = scratch(name);
    fs::write(&path, bytes).expect("a file of the scratch folder");
    path
}

fn csv(rows: &[(u32, [i64; 3])]) -> String {
    let lines = rows.iter().map(|(tick, [p, v, a])| format!("{tick},{p},{v},{a}\n"));
    String::from("tick,axis 0 position,axis 0 velocity,axis 0 acceleration\n") + &lines.collect::<String>()
}

fn by_tick(rows: &[[i64; 3]]) -> Vec<(u32, [i64; 3])> {
    (0..).zip(rows.iter().copied()).collect()
}

fn bytes(rows: &[[i64; 3]]) -> Vec<u8> {
    rows.iter().flatten().flat_map(|cell| cell.to_le_bytes()).collect()
}

/// What `verify` says of tables of case C, and its status.
fn verified(options: &[&str], tables: &[&str]) -> (String, Option<i32>) {
    let case_c = sheet("case-c");
    let words = [&["verify"], options, &[case_c.as_str()], tables].concat();
    let output = run(&words);
    let text = String::from_utf8_lossy(&output.stdout).into_owned() + &String::from_utf8_lossy(&output.stderr);
    (text, output.status.code())
}

/// Rows in every form: comma-separated values, JSON, a C array, bytes.
#[test]
fn every_form() {
    let json = r#"{"arrival": 4, "axes": [{"axis": 0, "position": [0, 43, 129, 214, 256],
        "velocity": [0, 86, 85, 85, 0], "acceleration": [86, -1, 0, -85, 0]}]}"#;
    let array = "static const int64_t c[5][1][3] = {\n{{0, 0, 86}},\n{{43, 86, -1}}, {{129, 85, 0}}, {{214, 85, \
        -85}},\n{{256, 0, 0}},\n};\n";
    let forms = [
        file("every.csv", csv(&by_tick(&CASE_C))),
        file("every.json", json),
        file("every.c", array),
        file("every.bin", bytes(&CASE_C)),
    ];
    for form in &forms {
        let (text, status) = verified(&[], &[form]);
        assert_eq!(status, Some(0), "{form}: {text}");
        assert!(
            text.contains("is the table of this job: rows 0 to 4, each of its 15 cells as planned anew."),
            "{text}"
        );
        assert!(text.contains("worst carry miss in position 0.5 of 1.5, from row 1"), "{text}");
        assert!(!text.contains("WRONG"), "{text}");
    }
}

/// Parts one after the other, a part by itself, and rows backwards with and without ticks.
#[test]
fn parts_and_backwards() {
    let rows = by_tick(&CASE_C);
    let (first, second) = (file("first.csv", csv(&rows[..2])), file("second.csv", csv(&rows[2..])));
    assert_eq!(verified(&[], &[&first, &second]).1, Some(0));
    let (text, status) = verified(&[], &[&first]);
    assert!(status == Some(1) && text.contains("rows 2 to 4 are missing"), "{text}");
    let (text, status) = verified(&["--first", "2"], &[&file("part.bin", bytes(&CASE_C[2..4]))]);
    assert!(status == Some(0) && text.contains("is rows 2 to 3 of this job's table of rows 0 to 4"), "{text}");
    let mut turned = CASE_C;
    turned.reverse();
    assert_eq!(verified(&["--backwards"], &[&file("back.bin", bytes(&turned))]).1, Some(0));
    assert_eq!(verified(&[], &[&file("back-forwards.bin", bytes(&turned))]).1, Some(1));
    let mut falling = rows;
    falling.reverse();
    assert_eq!(verified(&[], &[&file("falling.csv", csv(&falling))]).1, Some(0));
}

/// Another table has status 1, and the first cell that differs is named; the checks that need no
/// planner say what is wrong too.
#[test]
fn another_table() {
    let mut rows = by_tick(&CASE_C);
    rows[2].1[1] = 84;
    let (text, status) = verified(&[], &[&file("other.csv", csv(&rows))]);
    assert_eq!(status, Some(1), "{text}");
    assert!(text.contains("in row 2 the velocity of axis 0 is 84, planned is 85"), "{text}");
    assert!(text.contains("WRONG") == text.contains("worst carry miss in velocity 2"), "{text}");
    rows[2].1[1] = 85;
    rows[4].1[0] = 255;
    let (text, _) = verified(&[], &[&file("short.csv", csv(&rows))]);
    assert!(text.contains("WRONG  axis 0: row 4 is 255 0 0; the target there is 256 0 0"), "{text}");
    rows[4].1[0] = 256;
    rows.push((5, [256, 0, 0]));
    let (text, status) = verified(&[], &[&file("more.csv", csv(&rows))]);
    assert!(status == Some(1) && text.contains("the row of tick 5 is past the arrival, 4"), "{text}");
    rows[1].0 = 3;
    let (text, status) = verified(&[], &[&file("jump.csv", csv(&rows))]);
    assert!(status == Some(1) && text.contains("the row of tick 3 follows that of tick 0"), "{text}");
    let wide = "tick,a,b,c,d,e,f\n0,0,0,86,0,0,86\n";
    let (text, status) = verified(&[], &[&file("wide.csv", wide)]);
    assert!(status == Some(1) && text.contains("it has 2 axes, and the job has 1"), "{text}");
    let huge = csv(&[(0, [i64::MIN, i64::MAX, 0]), (1, [0; 3]), (2, [0; 3]), (3, [0; 3]), (4, [0; 3])]);
    let (text, status) = verified(&[], &[&file("huge.csv", huge)]);
    assert!(status == Some(1) && text.contains("a cell is past every table's range"), "{text}");
}

/// What cannot be read has status 2 and says where.
#[test]
fn unreadable() {
    for (name, content, said) in [
        ("cut.bin", &bytes(&CASE_C)[..100], "expected rows of 24 bytes, found 4 and 4 bytes more"),
        ("past.csv", b"tick,a,b,c\n0,0,0,99999999999999999999\n", "line 2: expected a whole number of 64 bits"),
        ("text.txt", b"hello\n", "expected a table"),
        ("cut.json", b"{\"axes\": [", "expected a value, found the end"),
        (
            "past.json",
            b"{\"axes\": [{\"axis\": 0, \"position\": [99999999999999999999]}]}",
            "a whole number of 64 bits",
        ),
        ("units.csv", b"tick,time (s),axis 0 position (degree)\n", "in units"),
        ("cut.c", b"const int64_t t[1][1][3] = {{{1, 2, 3}}", "expected `};`"),
    ] {
        let table = file(name, content);
        let (text, status) = verified(&[], &[&table]);
        assert!(status == Some(2) && text.contains(said), "{name}: {text}");
    }
    assert_eq!(run(&["verify", &sheet("case-c"), "/no/such/file"]).status.code(), Some(2));
}

/// A certificate holds; an edited one and one that is cut off do not. A refused job has none.
#[test]
fn certificates() {
    let name = scratch("case-c.certificate");
    let (_, status) = printed(&run(&["certify", "-o", &name, &sheet("case-c")]));
    assert_eq!(status, Some(0));
    let text = fs::read_to_string(&name).expect("a certificate");
    for said in [
        "polgamir certificate 1",
        "\nanswer 0 place 0 axes 1 arrival 4\n",
        "\n1 43 86 -1\n",
        "\n4 256 0 0\n",
        "5000000A",
    ] {
        assert!(text.contains(said), "{said}: {text}");
    }
    let (said, status) = printed(&run(&["verify", &name]));
    assert!(status == Some(0) && said.contains("holds: sheet, words, answer, checks and rows 0 to 4"), "{said}");
    let status_of = |content: &str| run(&["verify", &file("broken.certificate", content)]).status.code();
    assert_eq!(status_of(&text.replace("\n1 43 86 -1\n", "\n1 43 86 0\n")), Some(2));
    assert_eq!(status_of(&text[..text.len() / 2]), Some(2));
    assert_eq!(status_of("polgamir certificate 1\n"), Some(2));
    assert_eq!(run(&["certify", &sheet("too-soon")]).status.code(), Some(1));
    let (said, status) = verified(&[], &[&name]);
    assert!(status == Some(2) && said.contains("expected a table"), "{said}");
}
