//! The command `polgamir` on tours: what it prints and draws, and what it says of a wrong one.

mod common;

use std::fs;

use common::command::{printed, run, run_with, sheet, told};
use common::FIELD_TOUR_AXIS;
use polgamir::sheet::{Setup, Sheet, TourSheet};
use polgamir::{Stop, Tour, TourAxis, WordKind};

/// The tour of the readings on one axis: stops 4 with dwell 3, and 0 with dwell 5.
const TOUR: &str = "\
axis 1 pan
  half period 0
  weight 128
  speed limit 10
  acceleration limit 1
  start position 0
stop 4 dwell 3  # there
stop 0 dwell 5  # and back
";

/// What the command prints of a changed tour.
fn tour_with(options: &[&str], from: &str, to: &str) -> (String, Option<i32>) {
    assert!(TOUR.contains(from), "{from}");
    printed(&run_with(&[&["tour", "-"], options].concat(), TOUR.replace(from, to).as_bytes()))
}

/// What is said of a changed tour that cannot be read.
fn told_with(from: &str, to: &str) -> String {
    assert!(TOUR.contains(from), "{from}");
    let text = told(&run_with(&["tour", "-"], TOUR.replace(from, to).as_bytes()));
    text.trim_start_matches("polgamir: standard input: ").trim_end().into()
}

#[test]
fn tour_prints_the_total_and_the_arrivals() {
    let expected = "\
total 16

stop  arrival  dwell  departure  axis 1 pan
   0        4      3          7           4
   1       11      5         16           0
";
    assert_eq!(tour_with(&[], "", ""), (expected.into(), Some(0)));
    assert_eq!(tour_with(&["--plain"], "", ""), ("total 16\n0 4\n1 11\n".into(), Some(0)));
}

/// The table of a leg is that of case B, and the way back is its mirror image.
#[test]
fn tour_prints_the_tables_of_its_legs() {
    let (text, status) = tour_with(&["--plain", "--tables"], "", "");
    assert_eq!(status, Some(0));
    let (first, second) = text
        .strip_prefix("total 16\n0 4\n1 11\narrival 4\n")
        .and_then(|t| t.split_once("arrival 4\n"))
        .expect("two tables");
    let positions = |table: &str| -> Vec<i64> {
        table.lines().map(|line| line.split(' ').nth(1).expect("a position").parse().expect("a number")).collect()
    };
    assert_eq!(positions(first), [0, 128, 512, 896, 1024]);
    assert_eq!(positions(second), [1024, 896, 512, 128, 0]);
    let (text, _) = tour_with(&["--tables", "--units"], "", "");
    assert!(
        text.contains("\n\nleg to stop 1, from tick 7 of the tour\narrival 4\nin units\n\n      axis 1 pan\n"),
        "{text}"
    );
}

#[test]
fn refused_tours_name_the_stop_and_its_line() {
    let expected = "\
No plan for the leg to stop 1 (line 8): pan can arrive at no tick from 1 to 4096.
Bring start and target nearer, change a moving target, or raise limits as far as the motors allow.
  line 7: pan: start position 4
  line 4: pan: speed limit 10
  line 5: pan: acceleration limit 1
  line 8: pan: target position 100000000
On the set-up sheet look at \"enter start and target, still or moving\". [refusal 9]
";
    assert_eq!(tour_with(&[], "stop 0", "stop 100000000"), (expected.into(), Some(1)));
    let plain = ("refused 9 place 1 axes 2 arrival 0\n".into(), Some(1));
    assert_eq!(tour_with(&["--plain"], "stop 0", "stop 100000000"), plain);
    let expected = "\
No plan: the dwell of stop 1 is above 4096 ticks.
Enter a dwell from 0 to 4096 ticks.
  line 8: stop 1: dwell 4097
On the set-up sheet look at \"enter start and target, still or moving\". [refusal 11]
";
    assert_eq!(tour_with(&[], "dwell 5", "dwell 4097"), (expected.into(), Some(1)));
    let (text, status) = tour_with(&[], "stop 4 dwell 3", &"stop 4 dwell 3\n".repeat(70));
    assert_eq!(status, Some(1));
    assert!(text.starts_with("No plan: there are 71 stops, and a tour has at most 64.\n"), "{text}");
    assert!(text.contains("\n  line 71: the first stop too many\n"), "{text}");
}

/// In units a tour has seconds and what the sheet says that a unit stands for.
#[test]
fn tour_prints_units() {
    let expected = "\
total 16 (4 s)

stop  arrival, s  dwell, s  departure, s  axis 1 pan, degree
   0           1      0.75          1.75                   2
   1        2.75      1.25             4                   0
";
    let scaled = "tick 0.25\nunit 0.5 degree\naxis 1 pan";
    assert_eq!(tour_with(&["--units"], "axis 1 pan", scaled), (expected.into(), Some(0)));
    let (plain, _) = tour_with(&["--units"], "", "");
    assert!(plain.starts_with("total 16\n\nstop  arrival  dwell  departure  axis 1 pan, units\n"), "{plain}");
}

#[test]
fn wrong_tours_are_told_with_their_line() {
    let expected = "a position for each axis, `dwell` and a whole number of ticks from 0 to 4096, or seconds as in `1 \
        s`, after `stop`";
    let told = told_with("stop 4 dwell 3", "stop 4 dwell -1");
    assert_eq!(told, format!("line 7: expected {expected}, found `-1`"));
    for wrong in ["stop 4", "stop 4 dwell", "stop x dwell 3", "stop 4 dwell 3 9"] {
        let found = wrong.strip_prefix("stop ").expect("a stop");
        assert_eq!(told_with("stop 4 dwell 3", wrong), format!("line 7: expected {expected}, found `{found}`"));
    }
    let told = told_with("stop 4 dwell 3", "stop 4 5 dwell 3");
    assert_eq!(told, "line 7: expected 1 positions after `stop`, one for each axis, found 2");
    let told = told_with("start position 0", "start position 0\nstart velocity 0");
    assert_eq!(told, "line 7: expected no `start velocity`, found `start velocity` beside `stop` of line 8");
    let told = told_with("start position 0", "start position 0\ntarget still");
    assert_eq!(told, "line 7: expected no `target`, found `target` beside `stop` of line 8");
    let told = told_with("axis 1 pan", "arrival 4\naxis 1 pan");
    assert_eq!(told, "line 1: expected no `arrival`, found `arrival` beside `stop` of line 8");
    let told = told_with("axis 1 pan", "window 0 9\naxis 1 pan");
    assert_eq!(told, "line 1: expected no `window`, found `window` beside `stop` of line 8");
    let told = told_with("  weight 128\n", "");
    assert_eq!(told, "line 1: expected `weight`, `shrinks` or `peaks` for axis 1, found none among its lines");
    let expected = "line 1: expected at least one of `axis 0` to `axis 5`, found the end of the sheet";
    assert_eq!("stop dwell 5".parse::<TourSheet>().expect_err("no axis").to_string(), expected);
}

/// Each command says what to do with the other kind of sheet.
#[test]
fn jobs_and_tours_are_told_apart() {
    let expected =
        "polgamir: standard input: expected a job, found a tour: `polgamir tour` plans it, `polgamir plot` and \
         `polgamir report` show it\n";
    for command in ["plan", "words"] {
        assert_eq!(told(&run_with(&[command, "-"], TOUR.as_bytes())), expected);
    }
    assert!(told(&run(&["tour", &sheet("case-c")])).ends_with("found a job: `polgamir plan` plans it\n"));
    let job = fs::read_to_string(sheet("case-c")).expect("a sheet");
    assert!(matches!((TOUR.parse(), job.parse()), (Ok(Setup::Tour(_)), Ok(Setup::Job(_)))));
    assert_eq!(TOUR.parse::<Sheet>().expect_err("a tour").first().line, 7);
    assert_eq!(job.parse::<TourSheet>().expect_err("a job").first().line, 3);
}

#[test]
fn sheets_of_tours_read_back() {
    let sheet: TourSheet = TOUR.parse().expect("a tour");
    let stops = [(4, 3), (0, 5)].map(|(pan, dwell)| Stop { positions: [0, pan, 0, 0, 0, 0], dwell });
    assert_eq!((sheet.tour, &sheet.stops[..]), (Tour::new().with_axis(1, FIELD_TOUR_AXIS), &stops[..]));
    assert_eq!(
        (sheet.axis_title(1), sheet.line_of_stop(1), sheet.line_of_stop(2)),
        ("axis 1 pan".into(), Some(8), None)
    );
    let leg = sheet.leg(1).expect("a leg");
    let line = |entry| leg.line_of(Some(1), entry);
    assert_eq!((line(WordKind::StartPosition), line(WordKind::TargetPosition)), (Some(7), Some(8)));
    assert_eq!(sheet.leg(0).and_then(|leg| leg.line_of(Some(1), WordKind::StartPosition)), Some(6));
    let again: TourSheet = sheet.to_string().parse().expect("a written tour");
    assert_eq!((again.tour, &again.stops, again.leg(2)), (sheet.tour, &sheet.stops, None));
    let jointed: TourSheet = TOUR.replace("weight 128", "weight 128\nsecond half period 9").parse().expect("a tour");
    assert_eq!(jointed.tour.axes[1], Some(TourAxis { second_half_period: Some(9), ..FIELD_TOUR_AXIS }));
    assert_eq!(jointed.to_string().parse::<TourSheet>().expect("a written tour").tour, jointed.tour);
    let unnamed = TourSheet::new(sheet.tour, sheet.stops);
    assert_eq!((unnamed.axis_name(1), unnamed.line_of_stop(0)), (None, None));
}

#[test]
fn plot_draws_the_timeline() {
    let (picture, status) = printed(&run(&["plot", "-o", "-", &sheet("plot-of-stems")]));
    assert_eq!(status, Some(0));
    assert_eq!(picture.matches("<clipPath").count(), 6);
    for stop in 0..6 {
        assert_eq!(
            picture
                .matches(&format!(" font-weight=\"bold\" text-anchor=\"middle\" fill=\"#1F2328\">{stop}</text>"))
                .count(),
            2,
            "each axis has the number of stop {stop}"
        );
    }
    assert!(!picture.contains("NaN") && !picture.contains("inf"));
    let (_, status) = printed(&run_with(&["plot", "-o", "-", "-"], TOUR.replace("dwell 5", "dwell 4097").as_bytes()));
    assert_eq!(status, Some(1));
}

/// Every one of 64 stops keeps its number above its line.
#[test]
fn sixty_four_stops_keep_their_labels() {
    let stops: String = (0..64).map(|stop| format!("stop {} dwell {}\n", stop * 37 % 50, stop % 5)).collect();
    let text = TOUR.split("stop 4").next().unwrap_or_default().to_string() + &stops;
    let (picture, status) = printed(&run_with(&["plot", "-o", "-", "-"], text.as_bytes()));
    assert_eq!(status, Some(0));
    for stop in 0..64 {
        let label = format!(" font-weight=\"bold\" text-anchor=\"middle\" fill=\"#1F2328\">{stop}</text>");
        assert_eq!(picture.matches(&label).count(), 1, "{stop}");
    }
}
