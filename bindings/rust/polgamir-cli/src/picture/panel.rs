//! One panel: a quantity of one axis over the ticks.

mod labels;
mod thin;

use super::scale::{label, quantity, Scale};
use super::svg::{stroke, Anchor, Drawing, Stroke, Type};
use super::sway::Point;
use crate::measure::rounded;
use thin::thinned;

/// The height of a panel's plot.
pub const HEIGHT: f64 = 104.0;

/// The room above a panel's plot for its name.
const ABOVE: f64 = 26.0;

/// The room for a second line, where name and remark do not fit one.
const SECOND_LINE: f64 = 15.0;

/// The room below the last panel of a stack for the ticks' numbers.
pub const BELOW: f64 = 32.0;

/// What a panel shows.
pub struct Panel {
    /// The quantity with its measure.
    pub name: String,
    /// A remark, at the right of the name.
    pub remark: String,
    /// The least and the greatest value shown.
    pub range: (f64, f64),
    /// The values of limit lines.
    pub limits: Vec<f64>,
    /// The curves, the first one at the bottom.
    pub curves: Vec<(Vec<Point>, Stroke)>,
}

/// The ticks that all panels of a picture share, and what stands out among them.
#[derive(Clone)]
pub struct Timeline {
    /// The seconds of a tick, where time is shown in these.
    pub tick: Option<f64>,
    /// The last tick drawn.
    pub last: u32,
    /// Shaded spans, the first one at the bottom.
    pub spans: Vec<Span>,
    /// Upright lines, from the left to the right.
    pub marks: Vec<Mark>,
}

impl Timeline {
    /// What the numbers below are.
    fn name(&self) -> String {
        match self.tick {
            Some(seconds) => format!("seconds; a tick is {} s", rounded(seconds)),
            None => "ticks".into(),
        }
    }

    /// The times that have a grid line: the tick of each, and its number in ticks or seconds.
    fn labels(&self, count: f64) -> Vec<(f64, String)> {
        let (size, smallest) = self.tick.map_or((1.0, 1.0), |seconds| (seconds, 0.0));
        let times = Scale { least: 0.0, greatest: f64::from(self.last) * size, from: 0.0, to: 1.0 };
        let values = times.round_values(count, smallest);
        let step = values.windows(2).map(|pair| pair[1] - pair[0]).next().unwrap_or(1.0);
        values.into_iter().map(|value| (value / size, label(value, step))).collect()
    }
}

/// A shaded span of ticks.
#[derive(Clone)]
pub struct Span {
    /// Where it begins.
    pub from: u32,
    /// Where it ends.
    pub to: u32,
    /// Its colour.
    pub colour: &'static str,
}

/// An upright line at a tick.
#[derive(Clone)]
pub struct Mark {
    /// The tick.
    pub tick: u32,
    /// What is written above it.
    pub label: String,
}

/// Where a panel's plot stands.
#[derive(Debug, Clone, Copy)]
pub struct Place {
    /// The left side.
    pub left: f64,
    /// The upper side.
    pub top: f64,
    /// The width.
    pub width: f64,
}

impl Place {
    /// The right side.
    fn right(&self) -> f64 {
        self.left + self.width
    }

    /// The lower side.
    fn bottom(&self) -> f64 {
        self.top + HEIGHT
    }

    /// The scale of the ticks.
    fn across(&self, time: &Timeline) -> Scale {
        Scale { least: 0.0, greatest: f64::from(time.last), from: self.left, to: self.right() }
    }
}

impl Panel {
    /// The scale of the values, on a plot whose upper side is at `top`.
    fn upward(&self, top: f64) -> Scale {
        Scale { least: self.range.0, greatest: self.range.1, from: top + HEIGHT, to: top }
    }

    /// The values that have a grid line, each with its label.
    fn labels(&self) -> Vec<(f64, String)> {
        let values = self.upward(0.0).round_values(5.0, 0.0);
        let step = values.windows(2).map(|pair| pair[1] - pair[0]).next().unwrap_or(1.0);
        values.into_iter().map(|value| (value, label(value, step))).collect()
    }

    /// The room that the labels need at the left of the plot.
    pub fn label_width(&self) -> f64 {
        self.labels().iter().map(|(_, text)| Type::LABEL.width_of(text)).fold(0.0, f64::max)
    }

    /// The room that the panel needs above its plot of a width, for its name, its remark and, where
    /// it is the first of a stack, the labels of several upright lines.
    pub fn above(&self, width: f64, time: &Timeline, first: bool) -> f64 {
        let second = if self.fits_one_line(width) { 0.0 } else { SECOND_LINE };
        let across = Place { left: 0.0, top: 0.0, width }.across(time);
        let lanes = match first && time.marks.len() > 1 {
            true => labels::placed(&time.marks, across).iter().map(|label| label.lane + 1).max().unwrap_or(0),
            false => 0,
        };
        ABOVE + second + lanes as f64 * labels::LANE
    }

    /// Whether name and remark fit one line of a width.
    fn fits_one_line(&self, width: f64) -> bool {
        Type::BODY.width_of(&self.name) + Type::LABEL.width_of(&self.remark) + 10.0 <= width
    }

    /// Draws the panel; the first of a stack says what the upright lines are,
    /// the last has the times below it.
    pub fn draw(&self, drawing: &mut Drawing, place: Place, time: &Timeline, first: bool, last: bool) {
        let across = place.across(time);
        let upward = self.upward(place.top);
        for span in &time.spans {
            let (from, to) = (across.at(span.from.into()), across.at(span.to.min(time.last).into()));
            if from < to {
                drawing.area(from, place.top, to - from, HEIGHT, span.colour);
            }
        }
        self.draw_grid(drawing, place, time, last);
        drawing.clipped(place.left, place.top, place.width, HEIGHT, |drawing| {
            for &limit in self.limits.iter().filter(|&&limit| upward.shows(limit)) {
                let height = upward.at(limit);
                drawing.line(&[(place.left, height), (place.right(), height)], stroke::LIMIT);
            }
            for (curve, stroke) in &self.curves {
                let points: Vec<Point> =
                    curve.iter().map(|&(tick, value)| (across.at(tick), upward.at(value))).collect();
                drawing.line(&thinned(&points), *stroke);
            }
        });
        drawing.frame(place.left, place.top, place.width, HEIGHT);
        let upright = if time.marks.len() == 1 { stroke::ARRIVAL } else { stroke::STOP };
        for mark in &time.marks {
            let x = across.at(mark.tick.into());
            drawing.line(&[(x, place.top), (x, place.bottom())], upright);
        }
        self.draw_names(drawing, place, time, first);
    }

    /// Draws grid lines and the numbers along them.
    fn draw_grid(&self, drawing: &mut Drawing, place: Place, time: &Timeline, last: bool) {
        let (across, upward) = (place.across(time), self.upward(place.top));
        for (tick, text) in time.labels((place.width / 48.0).floor()) {
            let x = across.at(tick);
            drawing.line(&[(x, place.top), (x, place.bottom())], stroke::GRID);
            if last {
                drawing.text(x, place.bottom() + 14.0, Anchor::Middle, Type::LABEL, &text);
            }
        }
        for (value, text) in self.labels() {
            let y = upward.at(value);
            let stroke = if value == 0.0 { stroke::ZERO } else { stroke::GRID };
            drawing.line(&[(place.left, y), (place.right(), y)], stroke);
            drawing.text(place.left - 6.0, y + 3.7, Anchor::End, Type::LABEL, &text);
        }
        if last {
            drawing.text(place.right(), place.bottom() + 28.0, Anchor::End, Type::BODY, &time.name());
        }
    }

    /// Draws the quantity's name and the remark above the plot, and of a first panel
    /// the labels of the upright lines.
    fn draw_names(&self, drawing: &mut Drawing, place: Place, time: &Timeline, first: bool) {
        let line = place.top - 6.0;
        let marks = if first { time.marks.as_slice() } else { &[] };
        let labels = if marks.len() > 1 { labels::placed(marks, place.across(time)) } else { Vec::new() };
        let lanes = labels.iter().map(|label| label.lane + 1).max().unwrap_or(0);
        for labels::Label { middle, text, lane } in &labels {
            let line = line - *lane as f64 * labels::LANE;
            drawing.text(*middle, line, Anchor::Middle, labels::SET, text);
        }
        let line = line - lanes as f64 * labels::LANE;
        match self.fits_one_line(place.width) {
            true => {
                drawing.text(place.left, line, Anchor::Start, Type::BODY, &self.name);
                drawing.text(place.right(), line, Anchor::End, Type::LABEL, &self.remark);
            }
            false => {
                drawing.text(place.left, line - SECOND_LINE, Anchor::Start, Type::BODY, &self.name);
                drawing.text(place.left, line, Anchor::Start, Type::LABEL, &self.remark);
            }
        }
        if let [only] = marks {
            let half = labels::SET.width_of(&only.label) / 2.0;
            let free_from = place.left + Type::BODY.width_of(&self.name) + 10.0 + half;
            let middle =
                place.across(time).at(only.tick.into()).clamp(free_from, (place.right() - half).max(free_from));
            drawing.text(middle, line, Anchor::Middle, labels::SET, &only.label);
        }
    }
}

/// A range around values, with some room above and below.
pub fn range_of(values: impl Iterator<Item = f64>) -> (f64, f64) {
    let (least, greatest) = extremes(values);
    let room = if greatest > least { 0.08 * (greatest - least) } else { 1.0 };
    (least - room, greatest + room)
}

/// A range around values and 0 that shows a limit on each side where the values come near it.
pub fn range_within(values: impl Iterator<Item = f64>, limit: f64) -> (f64, f64) {
    let (least, greatest) = extremes(values.chain([0.0]));
    let upper = if greatest > 0.4 * limit { greatest.max(limit) } else { greatest };
    let lower = if least < -0.4 * limit { least.min(-limit) } else { least };
    if upper == lower {
        return (-1.12 * limit, 1.12 * limit);
    }
    let room = 0.1 * (upper - lower);
    (lower - room, upper + room)
}

/// The range for values with a limit, the lines of the limit, and a remark that says it and
/// whether it is too far off to show.
pub fn limited(values: impl Iterator<Item = f64>, limit: f64) -> ((f64, f64), Vec<f64>, String) {
    let range = range_within(values, limit);
    let shown = range.0 <= -limit || range.1 >= limit;
    let place = if shown { "" } else { ", off the scale" };
    let text = if limit.fract() == 0.0 { label(limit, 1.0) } else { quantity(limit) };
    (range, vec![-limit, limit], format!("limit ±{text}{place}"))
}

/// The least and the greatest of values.
fn extremes(values: impl Iterator<Item = f64>) -> (f64, f64) {
    values.fold((f64::INFINITY, f64::NEG_INFINITY), |(least, greatest), value| (least.min(value), greatest.max(value)))
}

#[cfg(test)]
mod tests {
    use super::*;

    #[test]
    fn ranges_show_near_limits_only() {
        assert_eq!(range_within([0.0, 9.0].into_iter(), 10.0), (-1.0, 11.0));
        assert_eq!(range_within([0.0, 1.0].into_iter(), 1000.0), (-0.1, 1.1));
        assert_eq!(range_within([0.0, 20.0].into_iter(), 10.0), (-2.0, 22.0));
        assert_eq!(range_of([5.0].into_iter()), (4.0, 6.0));
    }
}
