//! The sway on a pole as it was entered, held to numbers that were worked out apart from the
//! product: tests/reference/poles.py prints them.

mod common;

use common::command::{printed, run_with};

/// The row of a pole in the report: pole as entered, planned for, measure, left, by the half period
/// where it was rounded, by the damping, by the cells, without the blend.
fn row(half_period: &str, damping: &str) -> Vec<String> {
    let text = format!(
        "arrival earliest\ntick 20 ms\nunit mm\naxis 0 pan\nhalf period {half_period}\n{damping}\nspeed limit \
         25\nacceleration limit 3\nstart position 420\n\
         start velocity 0\ntarget still\ntarget position -437\n"
    );
    let (page, status) = printed(&run_with(&["report", "-o", "-", "-"], text.as_bytes()));
    assert_eq!(status, Some(0));
    let section = page.split("<h2>If the pole is as entered</h2>").nth(1).expect("the section");
    let row = section.split("<tbody>").nth(1).and_then(|rows| rows.split("</tr>").next()).expect("a row");
    row.split("</td>").filter_map(|cell| Some(cell.rsplit_once('>')?.1.to_string())).collect()
}

/// `peaks 41.5 36.2` is no whole weight: 0.609793 mm are left, of which the damping's rounding by
/// itself leaves 0.631643 and the cells' 0.032502.
#[test]
fn two_peaks() {
    let expected = [
        "axis 0 pan",
        "27 ticks, 0.8723",
        "27 ticks, 0.8686 (weight 119)",
        "mm in proportion",
        "0.610",
        "0.632",
        "0.0325",
    ];
    assert_eq!(row("27", "peaks 41.5 36.2")[..7], expected);
}

/// `shrinks 0.98`: 1.946766 are left, 1.965401 by the damping's rounding and 0.036767 by the
/// cells'.
#[test]
fn a_ratio() {
    let expected =
        ["axis 0 pan", "27 ticks, 0.98", "27 ticks, 0.9692 (weight 126)", "mm in proportion", "1.95", "1.97", "0.0368"];
    assert_eq!(row("27", "shrinks 0.98")[..7], expected);
}

/// With the weight itself nothing is left by its rounding; the cells' rounding leaves
/// what it left before, 0.032299.
#[test]
fn the_weight_itself() {
    assert_eq!(row("0.54 s", "weight 119")[4..7], ["0.0323", "0", "0.0323"]);
}

/// A half period of 0.535 s is 26.75 ticks, and 27 are planned: 5.358177 are left, of which that
/// rounding by itself leaves 4.960621, the damping's 1.965401 and the cells' 0.036052.
#[test]
fn a_rounded_half_period() {
    let row = row("0.535 s", "shrinks 0.98");
    assert_eq!(row[1..3], ["26.75 ticks, 0.98", "27 ticks, 0.9692 (weight 126)"]);
    assert_eq!(row[4..8], ["5.36", "4.96", "1.97", "0.0361"]);
}
