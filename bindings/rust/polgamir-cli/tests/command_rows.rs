//! `polgamir plan --rows A..B`: the rows are those of the method's reference
//! (tests/reference/parts.py), in every form.

mod common;

use common::command::{printed, run, sheet, told};
use common::json::Json;

/// Rows 40 to 42 of pan-tilt-stem, and its last two, as the reference gives them.
const MIDDLE: [[i64; 7]; 3] = [
    [40, 93300, 7980, 226, 39187, -3063, 0],
    [41, 101393, 8206, 226, 36124, -3063, 0],
    [42, 109712, 8432, 226, 33061, -3063, 0],
];
const LAST: [[i64; 7]; 2] = [[109, 524687, 226, -226, -110025, -111, 111], [110, 524800, 0, 0, -110080, 0, 0]];

/// What `plan` prints of pan-tilt-stem.
fn planned(options: &[&str]) -> String {
    let (text, status) = printed(&run(&[&["plan"], options, &[&sheet("pan-tilt-stem")]].concat()));
    assert_eq!(status, Some(0), "{text}");
    text
}

/// The numbers of lines, without the first ones.
fn numbers(text: &str, skipped: usize, between: char) -> Vec<Vec<i64>> {
    let lines = text.lines().skip(skipped);
    let fields = |line: &str| {
        let fields = line.split(between).filter(|field| !field.is_empty());
        fields.map(|field| field.parse().expect("a number")).collect()
    };
    lines.map(fields).collect()
}

#[test]
fn rows_are_those_of_the_reference() {
    let plain = planned(&["--plain", "--rows", "40..42"]);
    assert!(plain.starts_with("arrival 110\n40 "), "{plain}");
    assert_eq!(numbers(&plain, 1, ' '), MIDDLE);
    assert_eq!(numbers(&planned(&["--rows", "40..42"]), 6, ' '), MIDDLE);
    assert_eq!(numbers(&planned(&["--csv", "--rows", "40..42"]), 2, ','), MIDDLE);

    let json = Json::read(&planned(&["--json", "--rows", "40..42"]));
    let Json::Object(members) = &json else { panic!("an object") };
    assert_eq!(members["first_row"], Json::Number("40".into()));
    let Json::List(axes) = &members["axes"] else { panic!("axes") };
    let Json::Object(tilt) = &axes[1] else { panic!("an axis") };
    let positions = MIDDLE.map(|row| Json::Number(row[4].to_string()));
    assert_eq!(tilt["position"], Json::List(positions.to_vec()));
}

/// A range may end past the arrival, and may be one row.
#[test]
fn rows_past_the_arrival_are_left_out() {
    assert_eq!(numbers(&planned(&["--plain", "--rows", "109..4096"]), 1, ' '), LAST);
    assert_eq!(numbers(&planned(&["--plain", "--rows", "110..110"]), 1, ' '), LAST[1..]);
}

/// In units, and of all rows, a part is cut out of what is printed of the table.
#[test]
fn a_part_is_cut_out_of_the_whole() {
    // The line that says what made an export names the rows of a part.
    let said = |text: String| text.lines().filter(|line| !line.starts_with('#')).map(String::from).collect::<Vec<_>>();
    for form in ["--plain", "--csv"] {
        assert_eq!(said(planned(&[form])), said(planned(&[form, "--rows", "0..110"])));
    }
    let (whole, part) =
        (said(planned(&["--csv", "--units"])), said(planned(&["--csv", "--units", "--rows", "17..29"])));
    assert_eq!(part, [&whole[..1], &whole[18..31]].concat());
    let csv = planned(&["--csv", "--rows", "17..29"]);
    assert!(csv.starts_with("# polgamir ") && csv.contains(": arrival 110, rows 17 to 29, in fine steps"), "{csv}");
}

#[test]
fn wrong_ranges_are_said() {
    let plan = |options: &[&str]| told(&run(&[&["plan"], options, &[&sheet("case-c")]].concat()));
    for wrong in ["", "4", "..", "1..", "..3", "3..1", "0..4097", "+1..3", "1...3", "-1..3", "one..two"] {
        assert_eq!(
            plan(&["--rows", wrong]),
            format!(
                "polgamir: expected two ticks from 0 to 4096, the first not above the second, as `40..55`, after \
                 `--rows`, found `{wrong}`; `polgamir plan --help` lists its options\n"
            )
        );
    }
    let text = plan(&["--rows", "5..9"]);
    assert!(
        text.ends_with("case-c.sheet: expected a first row from 0 to 4, the arrival, after `--rows`, found `5..9`\n"),
        "{text}"
    );
    assert!(plan(&["--rows", "1..2", "--cells", "9"]).contains("expected no `--cells` beside `--rows`"));
    assert!(plan(&["--rows", "1..2", "--all"]).contains("expected only one of `--all` and `--rows`"));
    assert!(plan(&["--rows", "1..2", "--c-array"]).contains("expected no `--rows` beside `--c-array`"));
    assert!(
        told(&run(&["words", "--rows", "1..2", &sheet("case-c")])).contains("`--rows` is no option of this command")
    );
    let refused = printed(&run(&["plan", "--plain", "--rows", "1..2", &sheet("too-soon")]));
    assert_eq!(refused, ("refused 8 place 0 axes 1 arrival 0\n".into(), Some(1)));
}
