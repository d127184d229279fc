//! Tours for other programs: what is exported reads back as the tables of the legs.

mod common;

use std::fs;

use common::command::{numbers_of_c, printed, run, run_with, sheet};
use common::json::Json;
use polgamir::sheet::TourSheet;

/// The tour of the repository.
fn tour() -> TourSheet {
    fs::read_to_string(sheet("plot-of-stems")).expect("a sheet").parse().expect("a tour")
}

/// The cells of all legs, one after the other.
fn cells() -> Vec<i64> {
    let sheet = tour();
    let legs =
        (0..sheet.stops.len()).map(|stop| sheet.tour.leg(&sheet.stops, stop).expect("a leg").plan().expect("a plan"));
    legs.flat_map(|plan| plan.into_cells()).collect()
}

/// What the command writes of the tour.
fn exported(options: &[&str]) -> String {
    let (text, status) = printed(&run(&[&["tour", &sheet("plot-of-stems")], options].concat()));
    assert_eq!(status, Some(0), "{text}");
    text
}

#[test]
fn comma_separated_values_read_back() {
    let csv = exported(&["--csv"]);
    let mut lines = csv.lines();
    let made = concat!(
        "# polgamir ",
        env!("CARGO_PKG_VERSION"),
        " from plot-of-stems.sheet: 6 stops, total 1032, in fine steps of 1/256 unit"
    );
    assert_eq!(lines.next(), Some(made));
    assert!(lines.next().is_some_and(|heading| heading.starts_with("stop,row,tick,axis 0 pan position,")));
    let rows: Vec<Vec<i64>> =
        lines.map(|line| line.split(',').map(|field| field.parse().expect("a number")).collect()).collect();
    assert_eq!(rows.iter().flat_map(|row| row[3..].to_vec()).collect::<Vec<_>>(), cells());
    let schedule = tour().tour.schedule(&tour().stops).expect("a schedule");
    for (stop, &arrival) in schedule.arrivals.iter().enumerate() {
        let last = rows.iter().rfind(|row| row[0] == stop as i64).expect("its rows");
        assert_eq!(last[2], i64::from(arrival), "the last row of a leg is at its arrival");
    }
}

#[test]
fn json_reads_back() {
    let json = Json::read(&exported(&["--json"]));
    assert_eq!(json.get("total").map(Json::number), Some(1032));
    assert_eq!(json.get("sheet"), Some(&Json::Text("plot-of-stems.sheet".into())));
    let legs = json.get("legs").expect("legs").list();
    let mut read: Vec<i64> = Vec::new();
    for leg in legs {
        let lists: Vec<Vec<i64>> = (leg.get("axes").expect("axes").list().iter())
            .flat_map(|axis| ["position", "velocity", "acceleration"].map(|name| axis.get(name).expect(name).list()))
            .map(|list| list.iter().map(Json::number).collect())
            .collect();
        read.extend((0..lists[0].len()).flat_map(|row| lists.iter().map(move |list| list[row])));
    }
    assert_eq!(read, cells());
    let times = |name: &str| -> Vec<u32> { legs.iter().map(|leg| leg.get(name).expect(name).number()).collect() };
    assert_eq!(times("arrival"), [110, 266, 420, 608, 793, 1032]);
    assert_eq!(times("departure"), [0, 160, 316, 470, 688, 843]);
    let scaled =
        format!("tick 0.02\nunit 0.01 degree\n{}", fs::read_to_string(sheet("plot-of-stems")).expect("a sheet"));
    let (units, _) = printed(&run_with(&["tour", "--json", "--units", "-"], scaled.as_bytes()));
    let units = Json::read(&units);
    assert_eq!(units.get("seconds_of_a_tick").map(Json::number), Some(0.02));
    let pan = units.get("legs").expect("legs").list()[0].get("axes").expect("axes").list()[0].clone();
    assert_eq!(pan.get("greatest_position").map(Json::number), Some(20.5));
}

/// The compiled arrays are the tables of the legs, and the list has their times.
#[test]
fn c_arrays_compile_and_are_the_tables() {
    let main = "\n#include <inttypes.h>\n#include <stdio.h>\n\nint main(void)\n{\n\
         \x20   for (int stop = 0; stop < PLOT_OF_STEMS_STOPS; stop++)\n\
         \x20       for (uint32_t row = 0; row <= plot_of_stems_legs[stop].last; row++)\n\
         \x20           for (int cell = 0; cell < 3 * PLOT_OF_STEMS_AXES; cell++)\n\
         \x20               printf(\"%\" PRId64 \" \", plot_of_stems_legs[stop].table[row][cell / 3][cell % 3]);\n\
         \x20   for (int stop = 0; stop < PLOT_OF_STEMS_STOPS; stop++)\n\
         \x20       printf(\"%\" PRIu32 \" \", plot_of_stems_legs[stop].arrival);\n\
         \x20   printf(\"%d\", PLOT_OF_STEMS_TOTAL);\n    return 0;\n}\n";
    let numbers = numbers_of_c("tour-export", &(exported(&["--c-array"]) + main));
    let cells = cells();
    assert_eq!(numbers[..cells.len()], cells);
    assert_eq!(numbers[cells.len()..], [110, 266, 420, 608, 793, 1032, 1032]);
}
