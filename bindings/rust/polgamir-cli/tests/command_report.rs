//! The report: one page that needs no network, whose numbers are those of the table and of the
//! planner.

mod common;

use std::fs;

use common::command::{printed, run, run_with, sheet};
use common::{changed_case_c, folder};
use polgamir::sheet::Sheet;
use polgamir::Motion;

/// The report of a sheet of the repository.
fn report(name: &str) -> String {
    let (page, status) = printed(&run(&["report", "-o", "-", &sheet(name)]));
    assert_eq!(status, Some(0), "{page}");
    page
}

/// The job of a sheet of the repository.
fn job(name: &str) -> polgamir::Job {
    fs::read_to_string(sheet(name)).expect("a sheet").parse::<Sheet>().expect("a good sheet").job
}

/// The text of the table cells of a page, row by row.
fn cells(page: &str) -> Vec<Vec<String>> {
    let rows = page.split("<tr>").skip(1).filter_map(|row| row.split("</tr>").next());
    let text = |cell: &str| {
        let text = cell.split_once('>').expect("the end of a tag").1.split("</t").next().unwrap_or_default();
        // The text within a cell's own tags: of a bar, the number after it.
        text.trim_end_matches("</span>").rsplit('>').next().unwrap_or_default().to_string()
    };
    rows.map(|row| row.split("<t").skip(1).filter(|cell| !cell.starts_with("r>")).map(text).collect()).collect()
}

/// The row of a page that begins with a text.
fn row(page: &str, first: &str) -> Vec<String> {
    cells(page).into_iter().find(|row| row[0] == first).unwrap_or_else(|| panic!("no row {first}"))
}

/// The rows of the table below a caption.
fn below(page: &str, caption: &str) -> Vec<Vec<String>> {
    let table = page.split(&format!("<caption>{caption}</caption>")).nth(1).unwrap_or_else(|| panic!("no {caption}"));
    cells(table.split("</table>").next().unwrap_or_default()).split_off(1)
}

const SHEETS: [&str; 10] = [
    "pan-tilt-stem",
    "case-c",
    "six-axes",
    "common-arrival",
    "cable-carriage",
    "damped-carriage",
    "laser-windows",
    "jointed-pole",
    "long-rail",
    "plot-of-stems",
];

/// A page stands alone: it fetches nothing, runs nothing, and every tag is closed.
#[test]
fn a_page_stands_alone() {
    for name in SHEETS {
        let page = report(name);
        assert!(page.starts_with("<!DOCTYPE html>") && page.ends_with("</html>\n"), "{name}");
        let addresses = page.replace("xmlns=\"http://www.w3.org/2000/svg\"", "");
        for outside in ["http", "<script", "<link", "<img", "@import", "src=", "href=", "NaN", "inf "] {
            assert!(!addresses.contains(outside), "{name}: {outside}");
        }
        let mut open: Vec<&str> = Vec::new();
        for tag in page.split('<').skip(1).map(|tag| tag.split('>').next().unwrap_or_default()) {
            let tag_name = tag.split([' ', '\n']).next().unwrap_or_default();
            match tag_name.strip_prefix('/') {
                Some(closed) => assert_eq!(open.pop(), Some(closed), "{name}"),
                None if tag.ends_with('/') || matches!(tag_name, "!DOCTYPE" | "meta") => {}
                None => open.push(tag_name),
            }
        }
        assert_eq!(open, Vec::<&str>::new(), "{name}");
        let mut names: Vec<&str> = page.split(" id=\"").skip(1).filter_map(|rest| rest.split('"').next()).collect();
        let count = names.len();
        names.sort_unstable();
        names.dedup();
        assert_eq!(names.len(), count, "{name}: two parts of one name");
    }
}

/// Every line of the sheet stands in the page, with what HTML keeps for itself written out.
#[test]
fn the_sheet_stands_as_it_was_entered() {
    let page = report("pan-tilt-stem");
    for line in fs::read_to_string(sheet("pan-tilt-stem")).expect("a sheet").lines() {
        assert!(page.contains(line), "{line}");
    }
    let named = changed_case_c("axis 0", "axis 0 <b>pan</b> & tilt");
    let (page, _) = printed(&run_with(&["report", "-o", "-", "-"], named.as_bytes()));
    assert!(page.contains("axis 0 &lt;b&gt;pan&lt;/b&gt; &amp; tilt") && !page.contains("<b>pan"));
    let words = folder("jobs").join("case-c.job");
    let (page, _) = printed(&run(&["report", "-o", "-", words.to_str().expect("letters")]));
    assert!(page.contains("# The sheet of job words.\narrival 4\n"), "{page}");
}

/// Arrivals are the planner's: alone, together, and with half period 0.
#[test]
fn arrivals_are_the_planner_s() {
    let page = report("pan-tilt-stem");
    let job = job("pan-tilt-stem");
    let unblended = |mut job: polgamir::Job| {
        job.axes.iter_mut().flatten().for_each(|axis| axis.half_period = 0);
        job
    };
    let alone = |number: usize| polgamir::Job::earliest().with_axis(number, job.axes[number].expect("an axis"));
    for (name, job) in [("axis 0 pan alone", alone(0)), ("axis 1 tilt alone", alone(1)), ("all together", job)] {
        let [with, without] = [job, unblended(job)].map(|job| job.arrival_found().expect("a plan"));
        assert_eq!(row(&page, name)[2..], [with.to_string(), without.to_string(), (with - without).to_string()]);
    }
    assert!(page.contains("The arrival is set by axis 0 pan: tick 110 is the least that it reaches alone."), "{page}");
    let could_not = "it could not; it would take an acceleration limit of 3 units/tick² in place of 2, or a speed \
        limit of 42 units/tick in place of 40";
    assert!(page.contains(could_not), "{page}");
    let mut turned = alone(0);
    turned.arrival = polgamir::Arrival::from(109);
    let reaches = |acceleration_limit: u32, speed_limit: u32| {
        let axis = turned.axes[0].expect("an axis");
        turned.with_axis(0, polgamir::Axis { acceleration_limit, speed_limit, ..axis }).arrival_found().is_ok()
    };
    assert!(reaches(3, 40) && reaches(2, 42) && !reaches(2, 41));
}

/// What sets an arrival is told in each case: an axis, all together, a window, or the sheet.
#[test]
fn what_sets_the_arrival_is_told() {
    for (name, text) in [
        ("common-arrival", "The sheet asks for tick 39, the least that suits all axes, set by axis 0 pan."),
        (
            "laser-windows",
            "Every axis can arrive at tick 110, set by axis 0 pan; tick 150 is the least after it that suits all axes \
             and fits a window with its dwell. Tick 149 fits none.",
        ),
        ("case-c", "The sheet asks for tick 4; the least that suits all axes is tick 2, set by axis 0."),
    ] {
        assert!(report(name).contains(text), "{name}");
    }
    let soon = changed_case_c("arrival 4", "arrival earliest").replace("target position      1", "target position 0");
    let (page, _) = printed(&run_with(&["report", "-o", "-", "-"], soon.as_bytes()));
    assert!(page.contains("there is no tick before tick 1"), "{page}");
    // An axis that stays where it is arrives right after its half periods.
    let blended = soon.replace("half period          0", "half period 3\nsecond half period 2");
    let (page, _) = printed(&run_with(&["report", "-o", "-", "-"], blended.as_bytes()));
    assert_eq!(row(&page, "axis 0 alone")[1..], ["3 + 2", "6", "1", "5"]);
    assert!(page.contains("it could not: an arrival has to be after both half periods, 5 ticks"), "{page}");
}

/// Each sway of a pole with a joint is told under its own name, and a job without a
/// pole has no chart and no cost.
#[test]
fn sways_are_told_apart() {
    let page = report("jointed-pole");
    for name in
        ["sway left on axis 0 pan if", "second sway left on axis 0 pan if", "second sway left, units in proportion<"]
    {
        assert!(page.contains(name), "{name}");
    }
    let caption = "second sway left, units in proportion, over the error of the second half period";
    assert_eq!(below(&page, caption).len(), 9);
    assert_eq!(row(&page, "axis 0 pan, second sway")[1..3], ["11 ticks, 1", "11 ticks, 1"]);
    for name in ["case-c", "common-arrival"] {
        let page = report(name);
        assert!(page.contains("No axis has a half period: there is no blend, and it costs nothing."), "{name}");
        assert!(!page.contains("this table<") && !page.contains("is what the blend costs"), "{name}");
    }
}

/// Wherever a number of a sway stands, the page says that it is in proportion.
#[test]
fn a_sway_is_in_proportion() {
    for name in SHEETS {
        let page = report(name);
        // The title of a picture, which has a label of its own, and a column beside
        // another that says it, need not.
        let excused = |said: &str| said.starts_with(" over the error") || said.starts_with("\">") || said.is_empty();
        for said in page.split("sway left").skip(1).filter_map(|sway| sway.split('<').next()) {
            assert!(said.contains("in proportion") || excused(said), "{name}: sway left{said}");
        }
        assert!(!page.contains("top of the pole"), "{name}");
    }
    let page = report("pan-tilt-stem");
    assert!(page.contains("it is not the tip in degrees"));
    assert_eq!(row(&page, "axis 0 pan").len(), 9);
}

/// The least and the greatest position of an axis stand in the answer.
#[test]
fn positions_have_their_ends() {
    let (page, plan) = (report("six-axes"), job("six-axes").plan().expect("a plan"));
    let range = plan.position_range(3).expect("an axis");
    let shown = |cell: i64| polgamir::in_units(cell).to_string();
    assert_eq!(
        row(&page, "axis 3 slide")[1..6],
        ["-200", "640", &shown(*range.start()), &shown(*range.end()), "units"]
    );
    assert!(*range.start() < -200 * 256 && page.contains("Jerk and end stops are not limited."));
}

/// Limits and misses are those of the cells.
#[test]
fn limits_and_misses_are_read_off_the_cells() {
    for name in ["six-axes", "pan-tilt-stem", "damped-carriage"] {
        let (page, job) = (report(name), job(name));
        let sheet: Sheet = fs::read_to_string(sheet(name)).expect("a sheet").parse().expect("a good sheet");
        let plan = job.plan().expect("a plan");
        for (number, axis) in job.entered() {
            let rows: Vec<Motion> = plan.rows().filter_map(|row| row.axis(number)).collect();
            let greatest = rows.iter().map(|row| row.velocity.abs()).max().expect("rows");
            let part = 100.0 * greatest as f64 / (256.0 * f64::from(axis.speed_limit));
            let title = sheet.axis_title(number);
            assert_eq!(row(&page, &format!("{title}, speed"))[1], format!("{part:.0} %"), "{name}");
            let misses = rows.windows(2).map(|pair| {
                let (row, next) = (pair[0], pair[1]);
                (2 * (row.position + row.velocity - next.position) + row.acceleration).abs()
            });
            let worst = misses.max().expect("rows");
            let told = if worst % 2 == 0 { (worst / 2).to_string() } else { format!("{worst}/2") };
            let misses = cells(&page).into_iter().rfind(|row| row[0] == title).expect("its misses");
            assert_eq!(misses[1], told, "{name} {title}");
            assert!(worst <= 3);
        }
    }
}

/// The pole as entered keeps next to nothing, an error of its half period leaves more on both
/// sides, and never more than is proved.
#[test]
fn errors_of_the_pole_leave_sway() {
    let rows = below(&report("pan-tilt-stem"), "sway left, units in proportion, over the error of the half period");
    let numbers =
        |column: usize| -> Vec<f64> { rows.iter().map(|row| row[column].parse().expect("a number")).collect() };
    let (left, bound, without) = (numbers(1), numbers(2), numbers(3));
    assert_eq!((left.len(), rows[4][0].as_str()), (9, "as entered"));
    assert!(left[4] < 0.05 && left[..5].windows(2).all(|pair| pair[0] > pair[1]), "{left:?}");
    assert!(left[4..].windows(2).all(|pair| pair[0] < pair[1]), "{left:?}");
    assert!(without[4] > 100.0, "{without:?}");
    assert!(left.iter().zip(&bound).all(|(left, bound)| left < bound), "{bound:?}");
}

/// Entries that were rounded are listed, in the plan and in the report, each with what
/// was entered and what is planned.
#[test]
fn rounded_entries_are_listed() {
    let (plan, _) = printed(&run(&["plan", &sheet("stem-in-degrees")]));
    let page = report("stem-in-degrees");
    assert!(plan.contains("\nEntries that were rounded:\nline 8: axis 0 pan: swings 10 in 11.9 s, "), "{plan}");
    assert!(
        page.contains("<h2>Entries that were rounded</h2>\n<ul>\n<li>line 8: axis 0 pan: swings 10 in 11.9 s, "),
        "{page}"
    );
    assert_eq!(row(&page, "axis 0 pan")[1], "-3.5");
    assert!(page.contains("29.75 ticks, 0.8<") && !report("pan-tilt-stem").contains("were rounded"));
}

/// The bound is the library's, in the sheet's measure: on a pole that is as entered, and on one
/// whose half period is 10 percent longer.
#[test]
fn the_bound_is_the_proved_one() {
    let text = format!("unit 0.01 degree\n{}", fs::read_to_string(sheet("pan-tilt-stem")).expect("a sheet"));
    let (page, _) = printed(&run_with(&["report", "-o", "-", "-"], text.as_bytes()));
    let rows = below(&page, "sway left, degree in proportion, over the error of the half period");
    let pan = job("pan-tilt-stem").axes[0].expect("an axis");
    for (row, error) in [(&rows[4], 0), (&rows[8], 3)] {
        let bound = pan.sway_bound(110, error.into(), 0.into()).expect("a bound").rounded as f64 / 256.0 * 0.01;
        let told: f64 = row[2].parse().expect("a number");
        assert!((told - bound).abs() <= 0.005 * bound, "{told} {bound}");
    }
}

#[test]
fn ticks_and_units_scale_a_report() {
    let text = fs::read_to_string(sheet("laser-windows")).expect("a sheet");
    let text = format!("tick 0.02\nunit 0.01 degree\n{text}");
    let (page, _) = printed(&run_with(&["report", "-o", "-", "-"], text.as_bytes()));
    for text in [
        "<b>tick 150 (3 s)</b>",
        "sway left, degree",
        "velocity, degree/s",
        ">seconds; a tick is 0.02 s<",
        ">arrival 3 s<",
    ] {
        assert!(page.contains(text), "{text}");
    }
    assert_eq!(row(&page, "axis 0 pan, speed")[3..5], ["20", "degree/s"]);
}

/// The report of a tour over the stops 4 and 0 on one axis: each leg is case B or its
/// mirror image, of four ticks, and by half periods longer; a tick earlier takes one more
/// of acceleration, as case E does.
#[test]
fn a_tour_is_told_by_its_legs() {
    let tour = |half_period: &str| {
        let text = format!(
            "tick 0.5\naxis 1 pan\nhalf period {half_period}\nweight 128\nspeed limit 10\nacceleration limit 1\nstart \
             position 0\n\
             stop 4 dwell 3\nstop 0 dwell 5\n"
        );
        let (page, status) = printed(&run_with(&["report", "-o", "-", "-"], text.as_bytes()));
        assert_eq!(status, Some(0), "{page}");
        page
    };
    let page = tour("0");
    assert!(page.contains("<b>16 ticks (8 s)</b>") && page.contains("stop 4 dwell 3\nstop 0 dwell 5"), "{page}");
    let of_length = |count: usize| cells(&page).into_iter().filter(move |row| row.len() == count).skip(1);
    let answer: Vec<Vec<String>> = of_length(6).collect();
    assert_eq!(answer, [["0", "4", "4", "3", "7", "4"], ["1", "4", "11", "5", "16", "0"]]);
    assert_eq!(row(&page, "axis 1 pan, acceleration")[1..], ["100 %", "4", "4", "units/s²", "0", "8", "0"]);
    let misses: Vec<Vec<String>> = of_length(7).collect();
    assert_eq!(misses, [["axis 1 pan", "0", "–", "–", "0", "–", "–"]]);
    let earlier = "it could not; it would take an acceleration limit of 8 units/s² in place of 4";
    let set: Vec<Vec<String>> = of_length(4).filter(|row| row[2] == "axis 1 pan").collect();
    assert_eq!(set, [["0", "4", "axis 1 pan", earlier], ["1", "4", "axis 1 pan", earlier]]);
    assert_eq!(row(&page, "axis 1 pan"), ["axis 1 pan", "0", "4", "units"]);

    let page = tour("3");
    assert!(page.contains("<b>22 ticks (11 s)</b>") && page.contains("<b>6 ticks (3 s)</b>"), "{page}");
    assert_eq!(row(&page, "leg to stop 1")[1..], ["7", "4", "3"]);
    assert_eq!(row(&page, "all legs")[1..], ["14", "8", "6"]);
    let left = below(&page, "sway left, units in proportion, over the error of the half period");
    assert!(left[4][1] == "0" && left[0][1] != "0" && left[8][1] != "0", "{left:?}");
}
