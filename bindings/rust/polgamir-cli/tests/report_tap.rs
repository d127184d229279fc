//! What the report says of a recorded tap: numbers of records whose poles are known.

mod common;

use std::fs;

use common::command::{printed, run_with, scratch, sheet, told};

/// A pole's swing at a time: its half period in seconds, and how far each swing shrinks.
fn swing(half_period: f64, ratio: f64, time: f64) -> f64 {
    ratio.powf(time / half_period) * (std::f64::consts::PI * time / half_period).cos()
}

/// Writes a record of a pole, a hundred samples a second for twelve seconds, off by an offset.
fn record(name: &str, half_period: f64, ratio: f64) -> String {
    let line = |sample: i32| {
        let time = f64::from(sample) / 100.0;
        format!("{time},{}\n", 3.0 + 12.0 * swing(half_period, ratio, time))
    };
    let file = scratch(name);
    fs::write(&file, (0..1200).map(line).collect::<String>()).expect("a record");
    file
}

/// The report of the sheet with a tick of 20 ms, given a record for an axis.
fn report(tap: &str) -> String {
    let text = format!("tick 0.02\nunit 0.01 degree\n{}", fs::read_to_string(sheet("pan-tilt-stem")).expect("a sheet"));
    let (page, status) = printed(&run_with(&["report", "--tap", tap, "-o", "-", "-"], text.as_bytes()));
    assert_eq!(status, Some(0), "{page}");
    page
}

/// The number beside a text of the section about the record.
fn beside(page: &str, what: &str) -> String {
    let section = page.split("<h2>What the recorded tap says</h2>").nth(1).expect("the section");
    let cell = section.split(&format!(">{what}</td>")).nth(1).unwrap_or_else(|| panic!("no {what}"));
    cell.split('>').nth(1).and_then(|cell| cell.split('<').next()).unwrap_or_default().into()
}

/// The number that a text begins with.
fn number(text: &str) -> f64 {
    text.split(' ').next().and_then(|number| number.parse().ok()).unwrap_or_else(|| panic!("no number: {text}"))
}

/// A pole as entered, of half period 30 ticks and ratio 113/143, has next to no
/// misfit, and leaves next to nothing.
#[test]
fn a_pole_as_entered_fits() {
    let page = report(&format!("pan={}", record("fits.csv", 0.6, 113.0 / 143.0)));
    assert!(page.contains("<caption>axis 0 pan: fits.csv</caption>") && !page.contains("axis 1 tilt: fits.csv"));
    assert!(beside(&page, "half period, fitted").ends_with(", 30 ticks"));
    assert!(number(&beside(&page, "greatest misfit, of 256 × G")) <= 0.02, "{page}");
    assert!(number(&beside(&page, "sway left on the fitted pole, simulated")) < 0.001);
    assert!(number(&beside(&page, "sway it leaves at most, before rounding, proved")) < 0.003);
}

/// The misfit of another pole is that of its swing, tick by tick: the greatest
/// of |143 w(i + 30) + 113 w(i)|.
#[test]
fn the_misfit_is_that_of_the_swing() {
    let (half_period, ratio) = (0.66, 0.75);
    let page = report(&format!("0={}", record("misfits.csv", half_period, ratio)));
    let at = |tick: i32| swing(half_period, ratio, 0.02 * f64::from(tick));
    let greatest = (0..560).map(|tick| (143.0 * at(tick + 30) + 113.0 * at(tick)).abs()).fold(0.0, f64::max);
    let percent = 100.0 * greatest / 256.0;
    for what in ["greatest misfit, of 256 × G", "that of the fitted swing, without noise"] {
        let told = number(&beside(&page, what));
        assert!((told - percent).abs() < 0.03, "{what}: {told}, and not {percent}");
    }
    // By the theorem: V × E by the divisor, with V = 4 × 2 × 256 + 2 and G = (33/π)² units of 0.01
    // degree.
    let size = (33.0 / std::f64::consts::PI).powi(2) * 0.01;
    let most = 2050.0 * greatest * size / 256.0 / 256.0;
    let told = number(&beside(&page, "sway it leaves at most, before rounding, proved"));
    assert!((told - most).abs() < 0.01 * most, "{told}, and not {most}");
    let left = number(&beside(&page, "sway left on the fitted pole, simulated"));
    assert!(left > 0.0 && left < number(&beside(&page, "sway left on the fitted pole at most, proved")));
}

/// Without an axis a record counts for every axis; wrong axes and sheets without `tick` are told.
#[test]
fn wrong_records_are_told() {
    let file = record("all.csv", 0.6, 0.8);
    let page = report(&file);
    assert!(page.contains("axis 0 pan: all.csv") && page.contains("axis 1 tilt: all.csv"));
    let text = fs::read_to_string(sheet("pan-tilt-stem")).expect("a sheet");
    let wrong = |tap: &str, text: &str| told(&run_with(&["report", "--tap", tap, "-o", "-", "-"], text.as_bytes()));
    assert!(wrong(&file, &text).contains("expected `tick`, the seconds of a tick, for a recorded tap"));
    let timed = format!("tick 0.02\n{text}");
    assert!(wrong(&format!("zoom={file}"), &timed).contains("expected an axis of the sheet before `=`"));
    assert!(wrong("no-such.csv", &timed).contains("no-such.csv: "));
    let options = told(&run_with(&["report", "--rate", "100", "-o", "-", "-"], timed.as_bytes()));
    assert!(options.contains("expected `--tap` beside `--rate`"), "{options}");
}
