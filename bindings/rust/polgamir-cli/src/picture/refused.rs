//! The picture of a refused job or tour: it says the refusal.

use super::page::wrapped;
use super::svg::{Anchor, Drawing, Type};
use crate::command::refusal::Told;

/// The width of the picture, and its margin.
const WIDTH: f64 = 720.0;
const MARGIN: f64 = 24.0;

/// Draws a refusal in words.
pub fn draw_refusal(title: &str, told: &Told) -> String {
    let number = format!("{} {}", told.line_told(), told.number_told());
    let details = told.details.iter().map(|detail| (detail.as_str(), Type::BODY));
    let heading = format!("{title}: refused");
    let lines = [(heading.as_str(), Type::TITLE), (&told.sentence, Type::HEADING), (&told.remedy, Type::BODY)];
    let mut drawing = Drawing::new("");
    let mut top = MARGIN;
    for (text, set) in lines.into_iter().chain(details).chain([(number.as_str(), Type::BODY)]) {
        top += 6.0;
        for line in wrapped(text, WIDTH - 2.0 * MARGIN, set) {
            top += 1.3 * set.size;
            drawing.text(MARGIN, top, Anchor::Start, set, &line);
        }
    }
    drawing.finish(WIDTH, top + MARGIN, &heading, &told.in_short())
}
