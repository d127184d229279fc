//! Set-up sheets: what is read from them, and the line that is at fault in a wrong one.

mod common;

use common::{case_c, field_axis, Random};
use polgamir::sheet::{Sheet, SheetErrors};
use polgamir::{Arrival, Axis, Damping, Job, RestPoint, State, Target, WordKind};

/// The sheet of case C, line by line.
const CASE_C: [&str; 10] = [
    "arrival 4",
    "axis 0 pan",
    "half period 0",
    "weight 128",
    "speed limit 10",
    "acceleration limit 1",
    "start position 0",
    "start velocity 0",
    "target still",
    "target position 1",
];

/// Reads lines as a sheet.
fn read(lines: &[&str]) -> Result<Sheet, SheetErrors> {
    lines.join("\n").parse()
}

/// Reads case C with one line changed, from 1.
fn read_with(line: usize, text: &str) -> Result<Sheet, SheetErrors> {
    let mut lines = CASE_C;
    lines[line - 1] = text;
    read(&lines)
}

/// What is said of case C with one line changed.
fn told_with(line: usize, text: &str) -> String {
    read_with(line, text).expect_err("a wrong sheet").to_string()
}

#[test]
fn case_c_is_read() {
    let sheet = read(&CASE_C).expect("a good sheet");
    assert_eq!(sheet.job, case_c());
    assert_eq!(sheet.axis_name(0), Some("pan"));
    assert_eq!(sheet.axis_title(0), "axis 0 pan");
    assert_eq!(sheet.line_of(None, WordKind::Arrival), Some(1));
    assert_eq!(sheet.line_of(Some(0), WordKind::SpeedLimit), Some(5));
    assert_eq!(sheet.line_of(Some(1), WordKind::SpeedLimit), None);
    assert_eq!((sheet.axis_name(1), sheet.axis_name(9)), (None, None));
}

#[test]
fn comments_case_spacing_and_order_do_not_matter() {
    let sheet: Sheet = "# a sheet\r\n\r\nAxis 0   Pan head  # the upper one\r\n\
        Target: Still\r\n\ttarget position = 1\r\n\
        Weight: 128\r\nhalf   period 0\r\nacceleration limit: +1\r\nspeed limit: 10\r\n\
        start velocity 0\r\nstart position -0\r\n\r\nARRIVAL 4 # asked\r\n"
        .parse()
        .expect("a good sheet");
    assert_eq!(sheet.job, case_c());
    assert_eq!(sheet.axis_name(0), Some("Pan head"));
}

#[test]
fn targets_may_be_still_flying_or_moving() {
    let flying = Target::Fixed(RestPoint { position: 1, velocity: -3 });
    let sheet = read_with(9, "target flying\ntarget velocity -3").expect("a good sheet");
    assert_eq!(sheet.job.axes[0], Some(field_axis(flying)));

    let moving = Target::Moving(State { position: 1, velocity: 2, acceleration: -1, tick: -40 });
    let entries = "target moving\ntarget velocity 2\ntarget acceleration -1\ntarget tick -40";
    let sheet = read_with(9, entries).expect("a good sheet");
    assert_eq!(sheet.job.axes[0], Some(field_axis(moving)));

    let sheet = read_with(1, "arrival earliest").expect("a good sheet");
    assert_eq!(sheet.job.arrival, Arrival::Earliest);
}

/// A byte order mark, spaces that do not break and the minus signs of editors are read.
#[test]
fn typographic_text_is_read() {
    let text = CASE_C.join("\r\n").replace("speed limit 10", "speed\u{A0}limit\u{2003}10");
    for minus in ['-', '\u{2212}', '\u{2013}', '\u{2010}', '\u{2011}'] {
        let text = format!("\u{FEFF}{}", text.replace("target position 1", &format!("target position {minus}1")));
        let sheet: Sheet = text.parse().expect("a good sheet");
        assert_eq!(sheet.job.axes[0], Some(field_axis(Target::still(-1))), "{minus:?}");
        assert_eq!(sheet.line_of(None, WordKind::Arrival), Some(1));
    }
    assert!(read_with(10, "target position \u{2212}-1").is_err());
    assert!(read_with(10, "target position \u{2212}").is_err());
}

/// Damping is a weight, or what the tap test shows; it is read as single-precision floats,
/// from the decimals as they stand.
#[test]
fn damping_may_be_a_weight_a_ratio_or_two_peaks() {
    let read = |line: &str| {
        let sheet = read_with(4, line).expect("a good sheet");
        let again: Sheet = sheet.to_string().parse().expect("a written sheet");
        assert_eq!(again.job, sheet.job);
        assert_eq!(sheet.line_of(Some(0), WordKind::SecondWeight), Some(4));
        sheet.job.axes[0].expect("axis 0").damping
    };
    assert_eq!(read("Shrinks: 0.8"), Damping::Ratio(0.8));
    assert_eq!(read("shrinks 1"), Damping::Ratio(1.0));
    assert_eq!(read("shrinks .05"), Damping::Ratio(0.05));
    assert_eq!(read("shrinks 1e-45"), Damping::Ratio(f32::from_bits(1)));
    assert_eq!(read("shrinks \u{2212}0.5"), Damping::Ratio(-0.5));
    assert_eq!(read("peaks 31 24.5"), Damping::Peaks { first: 31.0, second: 24.5 });
    assert_eq!(read("weight 77"), Damping::Weight(77));
    for (wrong, expected) in [
        ("shrinks", "a number above 0 and at most 1 after `shrinks`, found the end of the line"),
        ("shrinks a lot", "a number above 0 and at most 1 after `shrinks`, found `a lot`"),
        ("shrinks nan", "a number above 0 and at most 1 after `shrinks`, found `nan`"),
        ("shrinks inf", "a number above 0 and at most 1 after `shrinks`, found `inf`"),
        ("peaks 31", "two numbers above 0, the second not above the first, after `peaks`, found `31`"),
    ] {
        assert_eq!(told_with(4, wrong), format!("line 4: expected {expected}"));
    }
    let both = "weight 128\nshrinks 0.8";
    let told = "line 5: expected one of `weight`, `shrinks` or `peaks` for axis 0, found another beside that of line 4";
    assert_eq!(told_with(4, both), told);
}

/// A pole that swings at two rates has a line for the second, and no other pole has one.
#[test]
fn a_second_half_period_may_stand_on_the_sheet() {
    let line = "weight 128\nSecond half period: 9";
    let sheet = read_with(4, line).expect("a good sheet");
    assert_eq!(sheet.job.axes[0], Some(Axis { second_half_period: Some(9), ..field_axis(Target::still(1)) }));
    assert_eq!(sheet.line_of(Some(0), WordKind::SecondHalfPeriod), Some(5));
    assert_eq!(sheet.to_string().matches("second half period").count(), 1);
    assert!(!read(&CASE_C).expect("a good sheet").to_string().contains("second"));
    let refused = read_with(4, "weight 128\nsecond half period 0").expect("a sheet for the planner to refuse");
    assert_eq!(refused.job.axes[0].and_then(|axis| axis.second_half_period), Some(0));
    for (wrong, told) in [
        (
            "second half period",
            "a whole number of ticks from 1 to 256, or seconds as in `0.15 s`, after `second half period`, found the \
             end of the line",
        ),
        (
            "second half period none",
            "a whole number of ticks from 1 to 256, or seconds as in `0.15 s`, after `second \
             half period`, found `none`",
        ),
        (
            "second half period 9\nsecond half period 9",
            "one `second half period` for axis 0, found another beside that of line 5",
        ),
    ] {
        let line = 4 + wrong.lines().count();
        assert_eq!(told_with(4, &format!("weight 128\n{wrong}")), format!("line {line}: expected {told}"));
    }
}

/// Numbers that the planner refuses are its own to refuse, so that its number and
/// sentence are what a crew reads.
#[test]
fn numbers_out_of_range_are_left_to_the_planner() {
    let sheet = read_with(4, "weight 129").expect("a sheet for the planner to refuse");
    assert_eq!(sheet.job.axes[0], Some(Axis { damping: Damping::Weight(129), ..field_axis(Target::still(1)) }));
    assert!(read_with(1, "arrival 5000").is_ok());
    assert!(read_with(10, "target position 9223372036854775807").is_ok());
}

#[test]
fn wrong_entries_are_told_with_their_line() {
    let told = [
        told_with(5, "speed limit fast"),
        told_with(5, "speed limit -1"),
        told_with(3, "half period"),
        told_with(4, "weight 1.5"),
        told_with(8, "start velocity 0 0"),
        told_with(9, "target soon"),
        told_with(1, "arrival 0"),
        told_with(1, "arrival"),
        told_with(2, "axis 6"),
        told_with(2, "axis"),
        told_with(10, "target position 9223372036854775808"),
    ];
    let expected = [
        "line 5: expected a whole number of units per tick from 1 to 1048576, or one as in `60 degree/s`, after `speed \
         limit`, found `fast`",
        "line 5: expected a whole number of units per tick from 1 to 1048576, or one as in `60 degree/s`, after `speed \
         limit`, found `-1`",
        "line 3: expected a whole number of ticks from 0 to 256, or seconds as in `0.42 s`, after `half period`, found \
         the end of the line",
        "line 4: expected a whole number from 1 to 128 after `weight`, found `1.5`",
        "line 8: expected a whole number of units per tick, or one as in `2.5 degree/s`, after `start velocity`, found \
         `0 0`",
        "line 9: expected `still` or `moving` after `target`, found `soon`",
        "line 1: expected `earliest`, a tick from 1 to 4096, or seconds as in `2.2 s`, after `arrival`, found `0`",
        "line 1: expected `earliest`, a tick from 1 to 4096, or seconds as in `2.2 s`, after `arrival`, found the end \
         of the line",
        "line 2: expected an axis number from 0 to 5 after `axis`, found `6`",
        "line 2: expected an axis number from 0 to 5 after `axis`, found the end of the line",
        "line 10: expected a whole number of units from -17179869184 to 17179869183, or one as in `-3.5 degree`, after \
         `target position`, found `9223372036854775808`",
    ];
    assert_eq!(told, expected);
}

#[test]
fn unknown_and_misplaced_entries_are_told_with_their_line() {
    assert_eq!(
        told_with(3, "half time 0"),
        "line 2: expected `half period` for axis 0, found none among its lines\n\
         line 3: expected `arrival`, `window`, `dwell`, `tick`, `unit`, `axis`, `stop`, `target` or one of: half \
         period, `weight`, `shrinks` or `peaks`, second half period, speed limit, acceleration limit, start position, \
         start velocity, target position, target velocity, target acceleration, target tick, found `half time 0`"
    );
    assert_eq!(
        told_with(2, "weight 128").lines().next(),
        Some("line 2: expected `arrival`, `window`, `dwell`, `tick`, `unit`, `axis` or `stop`, found `weight 128`")
    );
    assert_eq!(
        told_with(10, "target position 1\ntarget velocity 2"),
        "line 11: expected no `target velocity`, found `target velocity` beside `target still` of line 9"
    );
}

#[test]
fn entries_that_stand_twice_or_not_at_all_are_told_with_their_line() {
    let again = "target position 1\nweight 128";
    assert_eq!(
        told_with(10, again),
        "line 11: expected one of `weight`, `shrinks` or `peaks` for axis 0, found another beside that of line 4"
    );
    let again = "target position 1\ntarget still";
    assert_eq!(told_with(10, again), "line 11: expected one `target` for axis 0, found another beside that of line 9");
    let again = "target position 1\naxis 0";
    assert_eq!(told_with(10, again), "line 11: expected axis 0 once, found it again after line 2");
    let again = "target position 1\narrival 5";
    assert_eq!(told_with(10, again), "line 11: expected one `arrival`, found another beside that of line 1");

    assert_eq!(
        told_with(4, ""),
        "line 2: expected `weight`, `shrinks` or `peaks` for axis 0, found none among its lines"
    );
    assert_eq!(
        told_with(9, ""),
        "line 2: expected `target still` or `target moving` for axis 0, found none among its lines"
    );
    let moving = "target moving\ntarget velocity 1\ntarget acceleration 0";
    assert_eq!(told_with(9, moving), "line 2: expected `target tick` for axis 0, found none among its lines");
    assert_eq!(
        told_with(1, "# no arrival"),
        "line 10: expected `arrival earliest`, `arrival` with a tick, or the `stop` of a tour, found the end of the \
         sheet"
    );
    let told = read(&["arrival 4"]).expect_err("no axis").to_string();
    assert_eq!(told, "line 1: expected at least one of `axis 0` to `axis 5`, found the end of the sheet");
    assert_eq!("".parse::<Sheet>().expect_err("no sheet").first().line, 1);
}

/// A job written as a sheet is read back as the same job.
#[test]
fn written_sheets_read_back() {
    let mut random = Random(0x5EED_5EED_5EED_5EED);
    for _ in 0..1000 {
        let job = random.any_job();
        let sheet: Sheet = Sheet::from(job).to_string().parse().expect("a written sheet");
        assert_eq!(sheet.job, job);
    }
    let named = read(&CASE_C).expect("a good sheet");
    let again: Sheet = named.to_string().parse().expect("a written sheet");
    assert_eq!((again.job, again.axis_name(0)), (named.job, named.axis_name(0)));
    let extreme = field_axis(Target::still(i64::MIN));
    let job = Job::earliest().with_axis(5, Axis { speed_limit: u32::MAX, ..extreme });
    assert_eq!(Sheet::from(job).to_string().parse::<Sheet>().expect("a written sheet").job, job);
}
