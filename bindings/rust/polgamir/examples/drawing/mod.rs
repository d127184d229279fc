//! What the examples that draw share: colours, planned velocities, and the parts of a picture.

use std::fmt::Display;

use polgamir::{Axis, Job, Refusal};

/// Colours.
pub const BLUE: &str = "#0072B2";
pub const ORANGE: &str = "#D55E00";
pub const GREY: &str = "#5A5A5A";
pub const INK: &str = "#1F2328";

/// The velocities of the rows of a job of one axis, in fine steps a tick, as the planner gives
/// them.
pub fn velocities(axis: Axis, asked: u32) -> Result<Vec<i64>, Refusal> {
    let plan = Job::arriving_at(asked).with_axis(0, axis).plan()?;
    Ok(plan.rows().map(|row| row.cells()[1]).collect())
}

/// The start of a picture.
pub fn begin(width: u32, height: u32, title: &str) {
    let size = format!(r#"width="{width}" height="{height}" viewBox="0 0 {width} {height}""#);
    let font = "Helvetica, Arial, 'DejaVu Sans', sans-serif";
    println!(r#"<svg xmlns="http://www.w3.org/2000/svg" {size} role="img" font-family="{font}">"#);
    println!("<title>{title}</title>");
    println!(r##"<rect width="100%" height="100%" fill="#FFFFFF"/>"##);
}

/// A heading at a height, in letters of a size.
pub fn heading(y: u32, size: u32, words: &str) {
    println!(r#"<text x="24" y="{y}" font-size="{size}" font-weight="bold" fill="{INK}">{words}</text>"#);
}

/// Words at a place.
pub fn text(x: impl Display, y: f64, colour: &str, anchor: &str, words: &str) {
    println!(r#"<text x="{x:.1}" y="{y:.1}" font-size="12" text-anchor="{anchor}" fill="{colour}">{words}</text>"#);
}
