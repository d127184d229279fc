//! Draws the worked example of docs/METHOD.md: its envelopes, cruise and planned velocities, and
//! below them the two parts of the blend and their sum. docs/method.svg is what it writes.
//!
//!     cargo run --release --example method > method.svg

mod drawing;

use drawing::{begin, heading, text, BLUE as PLANNED, GREY as LIMIT, INK as SUM, ORANGE as SECOND};
use polgamir::{Axis, Damping, Refusal, RestPoint, Target, FINE_STEPS};

/// The axis of the example.
const SPEED_LIMIT: i64 = 3;
const ACCELERATION_LIMIT: i64 = 1;
const HALF_PERIOD: i64 = 3;
const SECOND_WEIGHT: i64 = 96;
const TARGET: i64 = 13;

/// The velocities of a job's rows, in fine steps a tick.
fn velocities(half_period: i64, asked: u32) -> Result<Vec<i64>, Refusal> {
    let axis = Axis {
        start: RestPoint { position: 0, velocity: 0 },
        speed_limit: SPEED_LIMIT as u32,
        acceleration_limit: ACCELERATION_LIMIT as u32,
        half_period: half_period as u32,
        damping: Damping::Weight(SECOND_WEIGHT as u32),
        second_half_period: None,
        target: Target::still(TARGET),
    };
    drawing::velocities(axis, asked)
}

/// The upper envelope of a leg from rest to rest.
fn upper(tick: i64, ticks: i64) -> i64 {
    FINE_STEPS * SPEED_LIMIT.min(ACCELERATION_LIMIT * tick).min(ACCELERATION_LIMIT * (ticks - tick))
}

fn x(tick: f64) -> f64 {
    76.0 + 48.0 * tick
}

/// A plot: the height of velocity 0, and the heights of 256 fine steps.
#[derive(Clone, Copy)]
struct Plot {
    zero: f64,
    unit: f64,
}

impl Plot {
    fn y(self, velocity: f64) -> f64 {
        self.zero - self.unit * velocity / FINE_STEPS as f64
    }

    /// A line through velocities by tick, drawn tick by tick.
    fn line(self, values: &[f64], colour: &str, style: &str) {
        let points: Vec<String> =
            values.iter().enumerate().map(|(k, &v)| format!("{:.1},{:.1}", x(k as f64), self.y(v))).collect();
        println!(r#"<polyline points="{}" fill="none" stroke="{colour}" {style}/>"#, points.join(" "));
    }

    /// A dot at each tick.
    fn dots(self, values: &[f64], colour: &str) {
        for (k, &v) in values.iter().enumerate() {
            println!(r#"<circle cx="{:.1}" cy="{:.1}" r="3" fill="{colour}"/>"#, x(k as f64), self.y(v));
        }
    }

    /// Level lines at whole units with their numbers, and the ticks below.
    fn frame(self, from: i64, to: i64, arrival: i64) {
        for unit in from..=to {
            let y = self.y((FINE_STEPS * unit) as f64);
            let colour = if unit == 0 { "#8C959F" } else { "#E4E8EC" };
            println!(r#"<path d="M{:.1} {y:.1}H{:.1}" stroke="{colour}"/>"#, x(0.0), x(arrival as f64));
            text(x(0.0) - 8.0, y + 4.0, LIMIT, "end", &(FINE_STEPS * unit).to_string());
        }
        for tick in 0..=arrival {
            text(x(tick as f64), self.y((FINE_STEPS * from) as f64) + 18.0, LIMIT, "middle", &tick.to_string());
        }
    }
}

/// The planned velocities between their envelopes, with the cruise.
fn draw_planned(planned: &[i64], landing: i64, arrival: i64) {
    let plot = Plot { zero: 190.0, unit: 34.0 };
    plot.frame(-3, 3, arrival);
    let envelope = |sign: i64| -> Vec<f64> { (0..=landing).map(|k| (sign * upper(k, landing)) as f64).collect() };
    for sign in [1, -1] {
        plot.line(&envelope(sign), LIMIT, r#"stroke-width="1.5" stroke-dasharray="6 3""#);
    }
    let cruise = planned.iter().copied().filter(|v| v % FINE_STEPS != 0).min().unwrap_or(0);
    let y = plot.y(cruise as f64);
    println!(r#"<path d="M{:.1} {y:.1}H{:.1}" stroke="{PLANNED}" stroke-dasharray="2 3"/>"#, x(0.0), x(arrival as f64));
    text(x(arrival as f64), y - 6.0, PLANNED, "end", &format!("cruise {cruise}"));
    text(x(0.4), plot.y(660.0), LIMIT, "start", "upper envelope");
    text(x(0.4), plot.y(-730.0), LIMIT, "start", "lower envelope");
    let values: Vec<f64> = planned.iter().map(|&v| v as f64).collect();
    plot.line(&values, PLANNED, r#"stroke-width="2""#);
    plot.dots(&values, PLANNED);
    let raised = planned.iter().position(|&v| v == cruise + 1).unwrap_or(0);
    text(x(raised as f64) - 4.0, plot.y(420.0), PLANNED, "start", &format!("tick {raised}: raised by 1"));
    println!(
        r##"<path d="M{0:.1} {1:.1}V{2:.1}" stroke="#8C959F" stroke-dasharray="3 3"/>"##,
        x(landing as f64),
        plot.y(768.0),
        plot.y(-768.0)
    );
    text(x(landing as f64) + 6.0, plot.y(-600.0), LIMIT, "start", &format!("landing, T = {landing}"));
}

/// The colour of the blend's first part.
const FIRST: &str = "#007F5F";

/// The blend's two parts, and the rows that they add up to.
fn draw_blend(planned: &[i64], rows: &[i64]) {
    let plot = Plot { zero: 500.0, unit: 44.0 };
    let arrival = rows.len() as i64 - 1;
    plot.frame(0, 3, arrival);
    let at = |k: i64| if (0..planned.len() as i64).contains(&k) { planned[k as usize] as f64 } else { 0.0 };
    let part = |weight: i64, delay: i64| -> Vec<f64> {
        (0..=arrival).map(|k| weight as f64 / 256.0 * at(k - delay)).collect()
    };
    plot.line(&part(256 - SECOND_WEIGHT, 0), FIRST, r#"stroke-width="1.6" stroke-dasharray="7 3""#);
    plot.line(&part(SECOND_WEIGHT, HALF_PERIOD), SECOND, r#"stroke-width="1.6" stroke-dasharray="3 3""#);
    let sum: Vec<f64> = rows.iter().map(|&v| v as f64).collect();
    plot.line(&sum, SUM, r#"stroke-width="2""#);
    plot.dots(&sum, SUM);
    text(x(3.2), plot.y(280.0), FIRST, "start", "160/256 of it");
    text(x(8.1), plot.y(300.0), SECOND, "start", "96/256 of it, 3 ticks later");
    text(x(5.2), plot.y(640.0), SUM, "start", "their sum: the velocity cells of the table");
}

fn main() -> Result<(), Refusal> {
    let landing = 8;
    let arrival = landing + HALF_PERIOD;
    let rows = velocities(HALF_PERIOD, 0)?;
    assert_eq!(rows.len() as i64, arrival + 1, "the arrival of the example");
    let mut planned = velocities(0, landing as u32)?; // without a blend the rows are the planned motion
    planned.resize(rows.len(), 0);
    begin(660, 560, "Planned velocities between their envelopes, and the blend of two parts of them");
    heading(34, 14, "Planned: velocities between two envelopes, level at the cruise");
    text(24.0, 54.0, LIMIT, "start", "fine steps a tick, by tick; speed limit 768, changes of at most 256");
    draw_planned(&planned, landing, arrival);
    heading(346, 14, "Blended: two parts of it, half a period apart");
    draw_blend(&planned, &rows);
    text(x(arrival as f64) + 6.0, 536.0, LIMIT, "end", "tick");
    println!("</svg>");
    Ok(())
}
