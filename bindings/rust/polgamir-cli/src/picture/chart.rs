//! A chart of what depends on an error: one plot, with the entered value in its middle.

use super::scale::{label, Scale};
use super::svg::{stroke, Anchor, Drawing, Stroke, Type};
use super::sway::Point;
use super::PANEL_WIDTH as WIDTH;

/// The height of its plot.
const HEIGHT: f64 = 104.0;

/// The room above the plot for the name of the values, and below it for the errors and their name.
const ABOVE: f64 = 20.0;
const BELOW: f64 = 32.0;

/// A chart.
pub struct Chart {
    /// What it shows, for those who cannot see it.
    pub title: String,
    /// What goes across: the error.
    pub across: String,
    /// What stands after each of its numbers.
    pub suffix: &'static str,
    /// What goes upward.
    pub upward: String,
    /// The least and the greatest error.
    pub range: (f64, f64),
    /// The curves, the first one at the bottom.
    pub curves: Vec<(Vec<Point>, Stroke)>,
}

impl Chart {
    /// Draws the chart as a part of a page; names begin with a prefix.
    pub fn draw(&self, prefix: &str) -> String {
        let values = self.curves.iter().flat_map(|(curve, _)| curve).map(|&(_, value)| value);
        let greatest = match values.fold(0.0, f64::max) {
            0.0 => 1.0,
            greatest => 1.06 * greatest,
        };
        let upward = Scale { least: 0.0, greatest, from: ABOVE + HEIGHT, to: ABOVE };
        let labels = labelled(&upward, 4.0, 0.0);
        let left = labels.iter().map(|(_, text)| Type::LABEL.width_of(text)).fold(0.0, f64::max) + 10.0;
        let across = Scale { least: self.range.0, greatest: self.range.1, from: left, to: WIDTH - 18.0 };
        let mut drawing = Drawing::new(prefix);
        self.draw_grid(&mut drawing, &across, &upward, &labels);
        drawing.clipped(left, ABOVE, across.to - left, HEIGHT, |drawing| {
            for (curve, stroke) in &self.curves {
                let points: Vec<Point> = curve.iter().map(|&(x, y)| (across.at(x), upward.at(y))).collect();
                drawing.line(&points, *stroke);
            }
        });
        drawing.frame(left, ABOVE, across.to - left, HEIGHT);
        drawing.text(left, ABOVE - 6.0, Anchor::Start, Type::BODY, &self.upward);
        drawing.text(across.to, ABOVE + HEIGHT + 28.0, Anchor::End, Type::BODY, &self.across);
        drawing.finish(WIDTH, ABOVE + HEIGHT + BELOW, &self.title, &self.upward)
    }

    /// Draws grid lines and the numbers along them, and an upright line at the value that was
    /// entered.
    fn draw_grid(&self, drawing: &mut Drawing, across: &Scale, upward: &Scale, labels: &[(f64, String)]) {
        for (value, text) in labels {
            let y = upward.at(*value);
            drawing.line(&[(across.from, y), (across.to, y)], stroke::GRID);
            drawing.text(across.from - 6.0, y + 3.7, Anchor::End, Type::LABEL, text);
        }
        for (error, text) in labelled(across, 6.0, 0.0) {
            let x = across.at(error);
            let entered = error.abs() < 1e-9;
            let (sign, stroke) = match error > 0.0 {
                _ if entered => ("", stroke::ARRIVAL),
                positive => (if positive { "+" } else { "" }, stroke::GRID),
            };
            drawing.line(&[(x, ABOVE), (x, ABOVE + HEIGHT)], stroke);
            let text = format!("{sign}{text}{}", self.suffix);
            drawing.text(x, ABOVE + HEIGHT + 14.0, Anchor::Middle, Type::LABEL, &text);
        }
    }
}

/// The round values of a scale, each with its label.
fn labelled(scale: &Scale, count: f64, smallest_step: f64) -> Vec<(f64, String)> {
    let values = scale.round_values(count, smallest_step);
    let step = values.windows(2).map(|pair| pair[1] - pair[0]).next().unwrap_or(1.0);
    values.into_iter().map(|value| (value, label(value, step))).collect()
}
