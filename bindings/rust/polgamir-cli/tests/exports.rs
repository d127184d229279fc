//! Tables for other programs: what is exported reads back as the table, and what a sheet says of
//! its ticks and units scales what is shown, never what is planned.

mod common;

use std::fs;

use common::command::{numbers_of_c, printed, run, run_with, sheet, told};
use common::json::Json;
use common::{changed_case_c, Random, CASE_C_TABLE};
use polgamir::sheet::{Sheet, TourSheet, Unit};
use polgamir::{in_units, Job, Plan};

/// What the command prints of a job whose sheet begins with some lines.
fn exported(options: &[&str], before: &str, job: &Job) -> String {
    let text = format!("{before}\n{}", Sheet::from(*job));
    let (text, status) = printed(&run_with(&[&["plan", "-"], options].concat(), text.as_bytes()));
    assert_eq!(status, Some(0), "{text}");
    text
}

/// Random jobs that have a plan.
fn planned_jobs(seed: u64, count: usize) -> Vec<(Job, Plan)> {
    let mut random = Random(seed);
    let mut planned = Vec::new();
    while planned.len() < count {
        let job = random.plannable_job();
        planned.extend(job.plan().ok().map(|plan| (job, plan)));
    }
    planned
}

/// The fields of lines of comma-separated numbers, without what made them and the heading.
fn numbers<T: std::str::FromStr>(csv: &str) -> Vec<Vec<T>> {
    let lines = csv.lines().skip(2);
    lines.map(|line| line.split(',').map(|field| field.parse().ok().expect("a number")).collect()).collect()
}

#[test]
fn comma_separated_values_read_back() {
    for (job, plan) in planned_jobs(0xC5F0_0000_1111_0007, 25) {
        let csv = exported(&["--csv"], "", &job);
        let rows: Vec<Vec<i64>> = numbers(&csv);
        assert!(rows.iter().map(|row| row[0]).eq(0..=i64::from(plan.arrival())));
        let cells: Vec<i64> = rows.iter().flat_map(|row| row[1..].to_vec()).collect();
        assert_eq!(cells, plan.cells());
        let in_ticks: Vec<Vec<f64>> = numbers(&exported(&["--csv", "--units"], "", &job));
        let units: Vec<f64> = in_ticks.iter().flat_map(|row| row[1..].to_vec()).collect();
        assert!(units.iter().copied().eq(plan.cells().iter().map(|&cell| in_units(cell))));
    }
    let heading = "tick,axis 0 position,axis 0 velocity,axis 0 acceleration\n0,0,0,86\n";
    let made = concat!(
        "# polgamir ",
        env!("CARGO_PKG_VERSION"),
        " from case-c.sheet: arrival 4, in fine steps of 1/256 unit\n"
    );
    assert!(printed(&run(&["plan", "--csv", &sheet("case-c")])).0.starts_with(&format!("{made}{heading}")));
}

/// A name with a comma or a quote stays one field.
#[test]
fn names_are_quoted() {
    let named = changed_case_c("axis 0", "axis 0 pan, \"left\"");
    let (csv, _) = printed(&run_with(&["plan", "--csv", "-"], named.as_bytes()));
    assert!(csv.contains("\ntick,\"axis 0 pan, \"\"left\"\" position\",\"axis"), "{csv}");
    let (json, _) = printed(&run_with(&["plan", "--json", "-"], named.as_bytes()));
    let json = Json::read(&json);
    assert_eq!(
        json.get("axes").map(|axes| axes.list()[0].get("name").cloned()),
        Some(Some(Json::Text("pan, \"left\"".into())))
    );
}

#[test]
fn json_reads_back() {
    for (job, plan) in planned_jobs(0x1507_0000_2222_0003, 25) {
        let json = Json::read(&exported(&["--json"], "", &job));
        assert_eq!(json.get("arrival").map(Json::number), Some(plan.arrival()));
        let axes = json.get("axes").expect("axes").list();
        assert!(axes.iter().map(|axis| axis.get("axis").expect("a number").number::<usize>()).eq(plan.axes().axes()));
        let lists: Vec<Vec<i64>> = axes
            .iter()
            .flat_map(|axis| ["position", "velocity", "acceleration"].map(|name| axis.get(name).expect(name).list()))
            .map(|list| list.iter().map(Json::number).collect())
            .collect();
        let cells: Vec<i64> =
            (0..=plan.arrival() as usize).flat_map(|row| lists.iter().map(move |list| list[row])).collect();
        assert_eq!(cells, plan.cells());
    }
}

/// The compiled array is the table, cell for cell.
#[test]
fn a_c_array_compiles_and_is_the_table() {
    for (index, (job, plan)) in planned_jobs(0xCAFE_0000_3333_0001, 4).into_iter().enumerate() {
        let array = exported(&["--c-array"], "", &job);
        let main = "\n#include <inttypes.h>\n#include <stdio.h>\n#include <string.h>\n\nint main(void)\n{\n\
             \x20   int64_t cells[(PLAN_ARRIVAL + 1) * PLAN_AXES * 3];\n    memcpy(cells, plan_table, sizeof cells);\n\
             \x20   printf(\"%d %d\", PLAN_ARRIVAL, PLAN_MASK);\n\
             \x20   for (size_t i = 0; i < sizeof plan_table / sizeof cells[0]; i++)\n\
             \x20       printf(\" %\" PRId64, cells[i]);\n    return 0;\n}\n";
        let numbers = numbers_of_c(&format!("export{index}"), &(array + main));
        assert_eq!(numbers[..2], [i64::from(plan.arrival()), i64::from(plan.axes().0)]);
        assert_eq!(numbers[2..], *plan.cells());
    }
    let (array, _) = printed(&run(&["plan", "--c-array", &sheet("pan-tilt-stem")]));
    assert!(array.contains("static const int64_t pan_tilt_stem_table[PAN_TILT_STEM_ARRIVAL + 1]"), "{array}");
}

/// A refused job has a line, in JSON an object, and the status of a refusal.
#[test]
fn refusals_are_exported() {
    let refused = |option: &str| printed(&run(&["plan", option, &sheet("too-soon")]));
    let line = "refused 8 place 0 axes 1 arrival 0";
    assert_eq!(refused("--csv"), (format!("{line}\n"), Some(1)));
    let (array, status) = refused("--c-array");
    assert!(status == Some(1) && array.starts_with(&format!("#error \"{line}: No plan: axis 0 ")), "{array}");
    let (text, status) = refused("--json");
    let json = Json::read(&text);
    let number = |name: &str| json.get(name).expect(name).number::<u32>();
    assert_eq!((status, ["refused", "place", "axes", "arrival"].map(number)), (Some(1), [8, 0, 1, 0]));
    // Case E: tick 4 would do, or one more of acceleration.
    assert_eq!(["least_arrival", "next_arrival"].map(number), [4, 4]);
    let raised = &json.get("raises").expect("raises").list()[0];
    let raise = &raised.get("raises").expect("its raises").list()[0];
    assert_eq!((raised.get("axis").map(Json::number), raise.get("by").map(Json::number)), (Some(0), Some(1)));
    assert_eq!(raise.get("limit"), Some(&Json::Text("acceleration_limit".into())));
    assert_eq!(raise.get("to").map(Json::number), Some(2));
    assert_eq!(json.get("sheet"), Some(&Json::Text("too-soon.sheet".into())));
    let far = changed_case_c("target position      1", "target position 100000000");
    let json = Json::read(&printed(&run_with(&["plan", "--json", "-"], far.as_bytes())).0);
    assert_eq!(
        (json.get("least_arrival"), json.get("sheet")),
        (Some(&Json::Null), Some(&Json::Text("standard input".into())))
    );
    assert_eq!(json.get("polgamir"), Some(&Json::Text(env!("CARGO_PKG_VERSION").into())));
}

#[test]
fn exports_do_not_mix() {
    for options in
        [&["--csv", "--json"][..], &["--csv", "--plain"], &["--c-array", "--units"], &["--json", "--c-array"]]
    {
        let text = told(&run(&[&["plan", &sheet("case-c")], options].concat()));
        assert!(text.ends_with("; `polgamir plan --help` lists its options\n"), "{text}");
    }
}

/// Case C's sheet by ticks of 1/4 second and units of half a degree.
fn scaled_case_c() -> String {
    changed_case_c("arrival 4", "arrival 4\ntick 0.25\nunit 0.5 degree")
}

/// Numbers that are shown are scaled: a position by the unit, a velocity by the tick too,
/// an acceleration by its square.
#[test]
fn ticks_and_units_scale_what_is_shown() {
    let (text, status) = printed(&run_with(&["plan", "--units", "-"], scaled_case_c().as_bytes()));
    let expected = "\
arrival 4 (1 s)

axis 0: position 0 to 0.5 degree, speed up to 0.671875 of 20 degree/s, acceleration up to 2.6875 of 8 degree/s²
Jerk and end stops are not limited.

in degree, degree/s, degree/s², a tick is 0.25 s

      axis 0
tick  position  velocity  acceleration
   0   0.00000   0.00000        2.6875
   1   0.08398   0.67188       -0.0312
   2   0.25195   0.66406        0.0000
   3   0.41797   0.66406       -2.6562
   4   0.50000   0.00000        0.0000
";
    assert_eq!((text.as_str(), status), (expected, Some(0)));
    let (csv, _) = printed(&run_with(&["plan", "--units", "--csv", "-"], scaled_case_c().as_bytes()));
    assert!(csv.contains("\ntick,time (s),axis 0 position (degree),axis 0 velocity (degree/s),"), "{csv}");
    assert_eq!(numbers::<f64>(&csv)[1], [1.0, 0.25, 43.0 / 512.0, 86.0 / 128.0, -1.0 / 32.0]);
    let (json, _) = printed(&run_with(&["plan", "--units", "--json", "-"], scaled_case_c().as_bytes()));
    let json = Json::read(&json);
    assert_eq!(json.get("seconds_of_a_tick").map(Json::number), Some(0.25));
    let measures = json.get("axes").map(|axes| axes.list()[0].get("measures").cloned());
    let names = ["degree", "degree/s", "degree/s²"].map(|name| Json::Text(name.into()));
    assert_eq!(measures, Some(Some(Json::List(names.into()))));
    let (picture, _) = printed(&run_with(&["plot", "-o", "-", "-"], scaled_case_c().as_bytes()));
    for text in
        ["arrival at tick 4 (1 s)", ">arrival 1 s<", "velocity, degree/s<", ">seconds; a tick is 0.25 s<", "limit ±20"]
    {
        assert!(picture.contains(text), "{text}");
    }
}

/// Cells, words and refusals are those of the sheet without them.
#[test]
fn ticks_and_units_do_not_change_the_plan() {
    let scaled = scaled_case_c();
    let plain = printed(&run_with(&["plan", "--plain", "-"], scaled.as_bytes()));
    assert_eq!(plain, (CASE_C_TABLE.into(), Some(0)));
    let case_c = fs::read(sheet("case-c")).expect("the sheet of case C");
    for options in [&["plan", "--csv", "-"][..], &["words", "-"], &["plan", "--c-array", "-"]] {
        assert_eq!(run_with(options, scaled.as_bytes()).stdout, run_with(options, &case_c).stdout);
    }
    let (tour, _) = printed(&run(&["tour", &sheet("plot-of-stems")]));
    let text = String::from("tick 0.02\n") + &fs::read_to_string(sheet("plot-of-stems")).expect("a tour");
    let (timed, _) = printed(&run_with(&["tour", "-"], text.as_bytes()));
    assert_eq!(timed, tour.replacen("total 1032", "total 1032 (20.64 s)", 1));
}

/// An axis may have a unit of its own among its lines.
#[test]
fn units_are_read_and_written() {
    let text = fs::read_to_string(sheet("common-arrival")).expect("a sheet of two axes");
    let text =
        format!("unit 0.01 degree\ntick = 0.02\n{}", text.replace("axis 1 tilt", "axis 1 tilt\nunit mm per turn"));
    let sheet: Sheet = text.parse().expect("a good sheet");
    let unit = |size, name: &str| Unit { size, name: name.into() };
    assert_eq!(sheet.tick_seconds(), Some(0.02));
    assert_eq!((sheet.unit_of(0), sheet.unit_of(5)), (Some(&unit(0.01, "degree")), Some(&unit(0.01, "degree"))));
    assert_eq!((sheet.unit_of(1), sheet.unit_of(6)), (Some(&unit(1.0, "mm per turn")), None));
    let again: Sheet = sheet.to_string().parse().expect("a written sheet");
    assert_eq!((again.job, again.tick_seconds()), (sheet.job, sheet.tick_seconds()));
    assert!((0..6).all(|axis| again.unit_of(axis) == sheet.unit_of(axis)));
    let (shown, _) = printed(&run_with(&["plan", "--units", "-"], text.as_bytes()));
    let line =
        "in degree, degree/s, degree/s² (axis 0 pan); mm per turn, mm per turn/s, mm per turn/s² (axis 1 tilt), \
         a tick is 0.02 s";
    assert_eq!(shown.lines().nth(6), Some(line));

    let tour = String::from("tick 0.02\nunit degree\n")
        + &fs::read_to_string(common::command::sheet("plot-of-stems")).expect("a tour");
    let tour: TourSheet = tour.parse().expect("a good sheet");
    let again: TourSheet = tour.to_string().parse().expect("a written sheet");
    assert_eq!((again.tick_seconds(), again.unit_of(0)), (Some(0.02), Some(&unit(1.0, "degree"))));
}

#[test]
fn wrong_ticks_and_units_are_told_with_their_line() {
    let told_of = |lines: &str| {
        format!("{lines}\n{}", changed_case_c("#", "#")).parse::<Sheet>().expect_err("a wrong sheet").to_string()
    };
    let tick = "a number of seconds above 0, as in `0.02` or `20 ms`, after `tick`";
    let unit = "a number above 0, or none for 1, and then a name after `unit`";
    for (lines, expected, found) in [
        ("tick", tick, "the end of the line"),
        ("tick 0", tick, "`0`"),
        ("tick 20 degree", tick, "`20 degree`"),
        ("tick 1/0", tick, "`1/0`"),
        ("tick inf", tick, "`inf`"),
        ("unit", unit, "the end of the line"),
        ("unit 0.01", unit, "`0.01`"),
        ("unit -1 mm", unit, "`-1 mm`"),
        ("unit degree 0.01", unit, "`degree 0.01`: write `unit 0.01 degree`"),
    ] {
        assert_eq!(told_of(lines), format!("line 1: expected {expected}, found {found}"));
    }
    assert_eq!(told_of("tick 1\ntick 2"), "line 2: expected one `tick`, found another beside that of line 1");
    assert_eq!(
        told_of("unit a\nunit b"),
        "line 2: expected one `unit` before the axes, found another beside that of line 1"
    );
    let twice = changed_case_c("axis 0", "axis 0\nunit a\nunit b").parse::<Sheet>().expect_err("two units").to_string();
    assert!(twice.contains("expected one `unit` for an axis, found another beside that of line"), "{twice}");
}
