//! The picture of a record: its samples, the fitted swing, and what is left between them.

use super::text::shown;
use super::Tap;
use crate::picture::scale::{label, Scale};
use crate::picture::svg::{colour, stroke, Anchor, Drawing, Stroke, Type};

/// The width of the picture, the left and the right end of its plots.
const WIDTH: f64 = 860.0;
const LEFT: f64 = 84.0;
const RIGHT: f64 = 840.0;

/// The upper end and the height of the plot of the record, and of that of what is left.
const RECORD: (f64, f64) = (124.0, 300.0);
const REST: (f64, f64) = (468.0, 110.0);

/// The record: its samples.
const SAMPLES: Stroke = Stroke { colour: colour::FAINT_INK, width: 1.0, dashes: "" };

/// The fitted swing.
const FITTED: Stroke = Stroke { colour: colour::UNBLENDED, width: 1.6, dashes: "" };

/// The drift.
const DRIFT: Stroke = Stroke { colour: colour::TARGET, width: 1.2, dashes: "6 3" };

/// Draws a record with its fit.
pub fn drawn(title: &str, tap: &Tap) -> String {
    let mut drawing = Drawing::new("tap-");
    let (said, spreads) = (rates_told(tap), spreads_told(tap));
    drawing.text(LEFT, 26.0, Anchor::Start, Type::TITLE, &format!("{title}: {said}"));
    for (line, spread) in spreads.iter().enumerate() {
        drawing.text(LEFT, 47.0 + 17.0 * line as f64, Anchor::Start, Type::BODY, spread);
    }
    legend(&mut drawing, 88.0);
    let times = &tap.record.times;
    let across = Scale { least: 0.0, greatest: times[times.len() - 1], from: LEFT, to: RIGHT };
    let values: Vec<f64> = tap.record.values.clone();
    draw_plot(&mut drawing, &across, RECORD, "deflection", range(&values), |drawing, upward| {
        draw_unused(drawing, tap, &across);
        let point = |(&time, &value): (&f64, &f64)| (across.at(time), upward.at(value));
        drawing.line(&times.iter().zip(&values).map(point).collect::<Vec<_>>(), SAMPLES);
        let fine: Vec<f64> = (0..=1600).map(|step| tap.end_of_part() * f64::from(step) / 1600.0).collect();
        let place = |time: f64, value: f64| (across.at(tap.part.start + time), upward.at(value));
        let drift: Vec<_> = fine.iter().map(|&time| place(time, tap.fit.drift_at(time))).collect();
        let swing: Vec<_> =
            fine.iter().map(|&time| place(time, tap.fit.drift_at(time) + tap.fit.swing_at(time))).collect();
        drawing.line(&drift, DRIFT);
        drawing.line(&swing, FITTED);
    });
    let rest = tap.fit.rest(&tap.part.samples);
    draw_plot(&mut drawing, &across, REST, "left by the fit", range(&rest), |drawing, upward| {
        let point = |(&time, &value): (&f64, &f64)| (across.at(tap.part.start + time), upward.at(value));
        drawing.line(&tap.part.samples.times.iter().zip(&rest).map(point).collect::<Vec<_>>(), SAMPLES);
    });
    drawing.text(RIGHT, REST.0 + REST.1 + 34.0, Anchor::End, Type::BODY, "seconds");
    drawing.finish(WIDTH, REST.0 + REST.1 + 48.0, &format!("{title}: {said}"), &spreads.join("; "))
}

/// The rates in words.
fn rates_told(tap: &Tap) -> String {
    let told: Vec<String> = tap.rates.iter().map(|rate| format!("{} s", shown(&rate.half_period).0)).collect();
    match told.as_slice() {
        [one] => format!("half period {one}"),
        several => format!("half periods {}", several.join(" and ")),
    }
}

/// The spreads in words, a line for each rate.
fn spreads_told(tap: &Tap) -> Vec<String> {
    let told = tap.rates.iter().map(|rate| {
        let ((_, low, high), (ratio, least, most)) = (shown(&rate.half_period), shown(&rate.ratio));
        format!(
            "half period {low} to {high} s, each swing {ratio} of the one before ({least} to {most}), {:.1} swings",
            rate.swings
        )
    });
    told.collect()
}

/// Says which line is which.
fn legend(drawing: &mut Drawing, y: f64) {
    let mut x = LEFT;
    for (stroke, name) in [(SAMPLES, "record"), (FITTED, "fitted swing"), (DRIFT, "drift")] {
        drawing.line(&[(x, y), (x + 26.0, y)], stroke);
        drawing.text(x + 32.0, y + 4.0, Anchor::Start, Type::BODY, name);
        x += 60.0 + Type::BODY.width_of(name);
    }
    drawing.area(x, y - 7.0, 26.0, 14.0, colour::WINDOW);
    drawing.text(x + 32.0, y + 4.0, Anchor::Start, Type::BODY, "left out");
}

/// A range around values, with some room.
fn range(values: &[f64]) -> (f64, f64) {
    let (least, most) =
        values.iter().fold((f64::MAX, f64::MIN), |(least, most), &value| (least.min(value), most.max(value)));
    let room = ((most - least) * 0.06).max(f64::MIN_POSITIVE.max(most.abs() * 1e-12));
    (least - room, most + room)
}

/// Draws a plot with its grid, frame and numbers.
fn draw_plot(
    drawing: &mut Drawing,
    across: &Scale,
    (top, height): (f64, f64),
    name: &str,
    (least, greatest): (f64, f64),
    inside: impl FnOnce(&mut Drawing, &Scale),
) {
    let upward = Scale { least, greatest, from: top + height, to: top };
    for (value, text) in labelled(&upward, (height / 40.0).max(4.0)) {
        let y = upward.at(value);
        drawing.line(&[(LEFT, y), (RIGHT, y)], stroke::GRID);
        drawing.text(LEFT - 6.0, y + 3.7, Anchor::End, Type::LABEL, &text);
    }
    for (time, text) in labelled(across, 10.0) {
        let x = across.at(time);
        drawing.line(&[(x, top), (x, top + height)], stroke::GRID);
        drawing.text(x, top + height + 15.0, Anchor::Middle, Type::LABEL, &text);
    }
    drawing.clipped(LEFT, top, RIGHT - LEFT, height, |drawing| inside(drawing, &upward));
    drawing.frame(LEFT, top, RIGHT - LEFT, height);
    drawing.text(LEFT, top - 8.0, Anchor::Start, Type::BODY, name);
}

/// Shades what was left out.
fn draw_unused(drawing: &mut Drawing, tap: &Tap, across: &Scale) {
    let mut strip = |from: f64, to: f64| {
        let (x, end) = (across.at(from), across.at(to));
        drawing.area(x, RECORD.0, (end - x).max(0.6), RECORD.1, colour::WINDOW);
    };
    let last = across.greatest;
    strip(0.0, tap.part.start);
    if let Some(time) = tap.pushed {
        strip(time, last);
    }
    let samples = &tap.part.samples.times;
    let usual = tap.part.samples.length() / samples.len() as f64;
    for pair in samples.windows(2).filter(|pair| pair[1] - pair[0] > 2.5 * usual) {
        strip(tap.part.start + pair[0], tap.part.start + pair[1]);
    }
}

/// The round values of a scale, each with its label.
fn labelled(scale: &Scale, count: f64) -> Vec<(f64, String)> {
    let values = scale.round_values(count, 0.0);
    let step = values.windows(2).map(|pair| pair[1] - pair[0]).next().unwrap_or(1.0);
    values.into_iter().map(|value| (value, label(value, step))).collect()
}

impl Tap {
    /// How long the fitted part lasts.
    fn end_of_part(&self) -> f64 {
        self.part.samples.length()
    }
}
