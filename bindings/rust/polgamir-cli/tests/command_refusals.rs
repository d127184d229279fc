//! The command `polgamir` where the planner refuses: what it says to a person, and the lines that
//! it names.

mod common;

use common::changed_case_c;
use common::command::{printed, run, run_with, sheet};

/// What is printed of a sheet that the planner refuses.
fn refused(text: &str) -> String {
    let (text, status) = printed(&run_with(&["plan", "-"], text.as_bytes()));
    assert_eq!(status, Some(1));
    text
}

/// A line of what is printed of a sheet that the planner refuses.
fn line(text: &str, index: usize) -> String {
    refused(text).lines().nth(index).map(String::from).unwrap_or_default()
}

const TAP: &str =
    "On the set-up sheet look at \"tap the pole, note the half period and how far each swing shrinks\". [refusal";

#[test]
fn refusals_begin_with_the_sentence_and_end_with_the_number() {
    let expected = "\
No plan: axis 0 cannot arrive at tick 3. Earliest: tick 4.
Write `arrival 4` or `arrival earliest` in line 3.
  Or, to keep tick 3, raise as far as the motors allow:
    axis 0: the acceleration limit by 1 to 2 (line 9)
On the set-up sheet look at \"read the arrival tick before the first sighting\". [refusal 8]
";
    assert_eq!(printed(&run(&["plan", &sheet("too-soon")])), (expected.into(), Some(1)));

    let expected = format!(
        "No plan: the half period or weight of axis 0 is outside its range.\nTap again and enter what the pole \
         does.\n  line 7: axis 0: weight 129, expected 1 to 128\n{TAP} 5]\n"
    );
    assert_eq!(refused(&changed_case_c("weight               128", "weight 129")), expected);

    let expected = format!(
        "No plan: the damping of axis 0 as measured is outside its range.\nTap again and enter what the pole does.\n  \
         line 7: axis 0: peaks 25 31, expected two numbers above 0, the second not above the first\n{TAP} 12]\n"
    );
    assert_eq!(refused(&changed_case_c("weight               128", "peaks 25 31")), expected);
    let text = refused(&changed_case_c("weight               128", "shrinks 1.25"));
    assert!(text.contains("\n  line 7: axis 0: shrinks 1.25, expected a number above 0 and at most 1\n"), "{text}");

    let expected = format!(
        "No plan: the second half period of axis 0 is outside its range.\nTap again and enter what the pole does.\n  \
         line 8: axis 0: second half period 0, expected 1 to 256\n{TAP} 15]\n"
    );
    assert_eq!(refused(&changed_case_c("weight               128", "weight 128\nsecond half period 0")), expected);

    let (text, status) = printed(&run(&["plan", "--cells", "14", &sheet("case-c")]));
    assert_eq!(status, Some(1));
    assert!(text.starts_with("No plan: the arrival is tick 4, and its table needs 15 cells.\n"), "{text}");
    assert!(text.ends_with(" [refusal 10]\n"), "{text}");
    assert_eq!(run(&["plan", "--cells", "15", &sheet("case-c")]).status.code(), Some(0));
}

/// Axes are called by their names, ticks are told in seconds too, and limits in the sheet's
/// measure.
#[test]
fn a_refusal_speaks_the_crew_s_words() {
    let text = std::fs::read_to_string(sheet("pan-tilt-stem")).expect("a sheet");
    let scaled = |arrival: &str| text.replace("arrival earliest", &format!("tick 0.02\nunit 0.01 degree\n{arrival}"));
    let told = refused(&scaled("arrival 105"));
    let lines: Vec<&str> = told.lines().collect();
    assert_eq!(lines[0], "No plan: pan cannot arrive at tick 105 (2.1 s). Earliest: tick 110 (2.2 s).");
    assert_eq!(lines[1], "Write `arrival 110` or `arrival earliest` in line 8.");
    assert_eq!(lines[2], "  Or, to keep tick 105 (2.1 s), raise as far as the motors allow:");
    assert!(lines[3].starts_with("    pan: the ") && lines[3].contains(" degree/s"), "{told}");
    assert!(!told.contains("axis 0") && told.ends_with(" [refusal 8]\n"), "{told}");
    // Two axes of one name are told apart by their numbers.
    let twins = refused(&scaled("arrival 105").replace("axis 1 tilt", "axis 1 pan"));
    assert!(twins.starts_with("No plan: axis 0 pan cannot arrive"), "{twins}");
    let both = refused(&scaled("arrival 50"));
    assert!(both.starts_with("No plan: pan and tilt cannot arrive at tick 50 (1 s). Earliest: "), "{both}");
    let latest = refused(&scaled("arrival 5000"));
    let expected = "No plan: the asked arrival, tick 5000 (100 s), is after the latest one, 4096 (81.92 s).\n\
                    Write a tick from 1 to 4096, or `arrival earliest` in line 8.\n";
    assert!(latest.starts_with(expected) && latest.ends_with(" [refusal 3]\n"), "{latest}");
}

/// The printed form of the table program stays to the letter.
#[test]
fn a_plain_refusal_is_one_line() {
    let plain = printed(&run(&["plan", "--plain", &sheet("too-soon")]));
    assert_eq!(plain, ("refused 8 place 0 axes 1 arrival 0\n".into(), Some(1)));
}

/// Refusal 6 names the line at fault, each cause of its own.
#[test]
fn refusal_6_names_the_guilty_line() {
    let moving = "target moving\ntarget velocity 0\ntarget acceleration 0\ntarget tick 0\ntarget position 1";
    let still = "target               still\n  target position      1";
    for (from, to, guilty) in [
        ("start velocity       0", "start velocity -11", "  line 11: axis 0: start velocity -11, expected -10 to 10"),
        (
            still,
            &moving.replace("velocity 0", "velocity 11"),
            "  line 13: axis 0: target velocity 11, expected -10 to 10",
        ),
        (
            still,
            &moving.replace("ration 0", "ration -2"),
            "  line 14: axis 0: target acceleration -2, expected -1 to 1",
        ),
        (still, &moving.replace("tick 0", "tick 4097"), "  line 15: axis 0: target tick 4097, expected -4096 to 4096"),
        (
            "start position       0",
            "start position 17179869184",
            "  line 10: axis 0: start position 17179869184, expected -17179869184 to 17179869183",
        ),
    ] {
        let text = refused(&changed_case_c(from, to));
        let lines: Vec<&str> = text.lines().collect();
        assert_eq!(lines[0], "No plan: start or target of axis 0 is outside its range.");
        assert_eq!((lines[2], lines.len()), (guilty, 4));
        assert!(lines[3].ends_with(" [refusal 6]"), "{text}");
    }
}

/// Refusal 16 names both lines that do not go together.
#[test]
fn refusal_16_names_the_second_half_period_and_the_acceleration() {
    let moving = "target moving\ntarget velocity 0\ntarget acceleration -1\ntarget tick 0\ntarget position 1";
    let jointed = changed_case_c("weight               128", "weight 128\nsecond half period 9");
    let expected = "\
No plan: the target of axis 0 accelerates, and its pole has a second half period.
Enter a target without acceleration, or leave the second half period out and let the pole sway at that rate.
  line 8: axis 0: second half period 9
  line 15: axis 0: target acceleration -1
On the set-up sheet look at \"enter start and target, still or moving\". [refusal 16]
";
    assert_eq!(refused(&jointed.replace("target               still\n  target position      1", moving)), expected);
}

/// A target that flies is refused with 17, and the command says what to write.
#[test]
fn refusal_17_says_what_to_write() {
    let flying = "target flying\n  target velocity 10\n  target position 10";
    let sheet = changed_case_c("target               still\n  target position      1", flying);
    assert_eq!(
        refused(&sheet),
        "No plan: the fixed target of axis 0 has a velocity, and a fixed target is at rest.\n\
         Write `target moving` with the same position and velocity, `target acceleration 0` and `target tick 4`.\n  \
         line 14: axis 0: target position 10\n  line 13: axis 0: target velocity 10\n\
         On the set-up sheet look at \"enter start and target, still or moving\". [refusal 17]\n"
    );
    let told =
        "Write `target moving` with the same position and velocity, `target acceleration 0` and as `target tick` the \
         tick at which the target is at its position.";
    assert_eq!(line(&sheet.replace("arrival 4", "arrival earliest"), 1), told);
}

/// Refusal 8 says which arrivals would do. The numbers are those of a target that is met at ticks 9
/// to 11 only, of case L, and of case B with windows.
#[test]
fn refusal_8_says_the_least_arrival_that_would_do() {
    let moving = "target moving\ntarget position 8\ntarget velocity -1\ntarget acceleration 1\ntarget tick 0";
    let passing = changed_case_c("target               still\n  target position      1", moving);
    for (asked, told) in [
        ("2", "No plan: axis 0 cannot arrive at tick 2. Earliest: tick 9."),
        ("38", "No plan: axis 0 cannot arrive at tick 38. Earliest: tick 9; none after tick 38 would do."),
    ] {
        assert_eq!(line(&passing.replace("arrival 4", &format!("arrival {asked}")), 0), told);
    }
    let far = changed_case_c("target position      1", "target position 100000000");
    assert_eq!(line(&far, 0), "No plan: axis 0 cannot arrive at tick 4. No tick from 1 to 4096 would do.");
    assert!(line(&far, 1).starts_with("Bring start and target nearer"));
    let windows = "arrival 100\nwindow 4 5\nwindow 2000 3000\ndwell 0";
    let case_b = changed_case_c("target position      1", "target position 4").replace("arrival 4", windows);
    let told =
        "No plan: every axis can arrive at tick 100, but it fits no window. Earliest: tick 4; the next one after tick \
         100: tick 2000.";
    assert_eq!(line(&case_b, 0), told);
    let told = "Write `arrival 2000`, `arrival 4` or `arrival earliest` in line 3, or look whether the site permits \
        other windows or a shorter dwell does.";
    assert_eq!(line(&case_b, 1), told);
}

/// Refusal 8 says what to raise, of each axis that it names. The numbers are the method's case
/// E and those worked out by hand.
#[test]
fn refusal_8_says_which_limit_to_raise() {
    let slow = changed_case_c("target position      1", "target position 9").replace("limit          10", "limit 2");
    let told = "    axis 0: the acceleration limit by 1 to 2 (line 9), or the speed limit by 1 to 3 (line 8)";
    assert_eq!(line(&slow.replace("arrival 4", "arrival 6"), 3), told);

    let moving = changed_case_c("target position      1", "target position 22").replace("limit          10", "limit 3");
    let moving = moving.replace("start velocity       0", "start velocity 2").replace("arrival 4", "arrival 8");
    let told = "    axis 0: the speed limit by 1 to 4 (line 8), or the acceleration limit by 2 to 3 (line 9)";
    assert_eq!(line(&moving, 3), told);

    let windowed = slow.replace("arrival 4", "arrival 6\nwindow 20 30\ndwell 4");
    assert_eq!(line(&windowed, 4), "    tick 6 fits no window either");
    let fitting = slow.replace("arrival 4", "arrival 6\nwindow 6 30\ndwell 4");
    assert!(!refused(&fitting).contains("fits no window"));

    let late = changed_case_c("half period          0", "half period 4");
    assert_eq!(line(&late, 2), "  To keep tick 4, no raise of one limit of each axis would do:");
    assert_eq!(line(&late, 3), "    axis 0: no speed limit and no acceleration limit alone");
}
