//! Draws the leg of a planned table: its two envelopes, and the three areas under its velocities.
//! docs/leg-areas.svg is what it writes.
//!
//!     cargo run --release --example leg_areas > leg-areas.svg

mod drawing;

use drawing::{begin, heading, text, velocities, BLUE as FIRST_RAMP, GREY, INK, ORANGE as LAST_RAMP};
use polgamir::{Axis, Damping, Refusal, RestPoint, State, Target, FINE_STEPS};

/// The last tick of the leg, and its ends and limits in units.
const TICKS: i64 = 24;
const START: i64 = 2;
const END: i64 = 4;
const SPEED_LIMIT: i64 = 9;
const ACCELERATION_LIMIT: i64 = 1;

/// The velocities of ticks 0 to the last, in fine steps a tick, as the planner gives them.
fn planned() -> Result<Vec<i64>, Refusal> {
    let target = State { position: 143, velocity: END, acceleration: 0, tick: TICKS };
    let axis = Axis {
        start: RestPoint { position: 0, velocity: START },
        speed_limit: SPEED_LIMIT as u32,
        acceleration_limit: ACCELERATION_LIMIT as u32,
        half_period: 0, // no blend: the rows are the planned motion
        damping: Damping::NONE,
        second_half_period: None,
        target: Target::Moving(target),
    };
    velocities(axis, TICKS as u32)
}

/// The ramp from the start and the ramp back from the end at a tick, with changes of
/// one sign, in fine steps a tick.
fn ramps(tick: i64, sign: i64) -> (i64, i64) {
    let step = sign * ACCELERATION_LIMIT;
    (FINE_STEPS * (START + step * tick), FINE_STEPS * (END + step * (TICKS - tick)))
}

fn upper(tick: i64) -> i64 {
    let (from, to) = ramps(tick, 1);
    from.min(to).min(FINE_STEPS * SPEED_LIMIT)
}

fn lower(tick: i64) -> i64 {
    let (from, to) = ramps(tick, -1);
    from.max(to).max(-FINE_STEPS * SPEED_LIMIT)
}

/// The area of so many ticks of a ramp from an end.
fn ramp_area(end: i64, ticks: i64) -> i64 {
    FINE_STEPS * (ticks * end + ticks * (ticks + 1) / 2 * ACCELERATION_LIMIT)
}

fn x(tick: i64) -> i64 {
    70 + 26 * tick
}

fn y(velocity: i64) -> f64 {
    222.0 - 15.0 * velocity as f64 / FINE_STEPS as f64
}

fn line(from: (i64, f64), to: (i64, f64), stroke: &str) {
    println!(r#"<path d="M{} {:.1}L{} {:.1}" fill="none" {stroke}/>"#, from.0, from.1, to.0, to.1);
}

fn envelope(velocity: fn(i64) -> i64) {
    let points: Vec<String> = (0..=TICKS).map(|k| format!("{},{:.1}", x(k), y(velocity(k)))).collect();
    println!(
        r#"<polyline points="{}" fill="none" stroke="{GREY}" stroke-width="1.5" stroke-dasharray="6 3"/>"#,
        points.join(" ")
    );
}

/// The speed limit on both sides, the axes with their numbers, and the two envelopes.
fn frame() {
    let faint = r##"stroke="#B4BCC4""##;
    for v in [-SPEED_LIMIT, 0, SPEED_LIMIT] {
        line((x(0), y(v * FINE_STEPS)), (x(TICKS), y(v * FINE_STEPS)), faint);
        text(x(0) - 8, y(v * FINE_STEPS) + 4.0, INK, "end", &v.to_string());
    }
    for tick in (0..=TICKS).step_by(4) {
        text(x(tick), 382.0, INK, "middle", &tick.to_string());
    }
    text(x(TICKS), 400.0, INK, "end", "tick");
    text(x(0) - 8, 78.0, INK, "middle", "velocity");
    envelope(upper);
    envelope(lower);
    text(x(12), y(upper(12)) - 7.0, GREY, "middle", "upper envelope");
    text(x(11), y(lower(8)), GREY, "middle", "lower envelope");
}

/// The colour of the ticks between the two ramps.
const LEVEL: &str = "#7FB8D8";

/// The region of a tick, as its colour, given its velocity.
fn region(tick: i64, velocity: i64) -> &'static str {
    match ramps(tick, 1) {
        (from, _) if velocity == from => FIRST_RAMP,
        (_, to) if velocity == to => LAST_RAMP,
        _ => LEVEL,
    }
}

/// A ramp's area in words.
fn ramp_line(end: i64, ticks: i64) -> String {
    let (v, u, area) = (FINE_STEPS * end, FINE_STEPS * ACCELERATION_LIMIT, ramp_area(end, ticks));
    let steps = ticks * (ticks + 1) / 2;
    format!("{ticks} ticks on a ramp from {v}, {u} a tick: {ticks} × {v} + {steps} × {u} = {area}")
}

/// The three areas, what they leave of the required sum, and between which areas that sum lies.
fn captions(inner: &[(i64, i64)]) {
    let count = |colour: &str| inner.iter().filter(|&&(k, v)| region(k, v) == colour).count() as i64;
    let (rising, level, falling) = (count(FIRST_RAMP), count(LEVEL), count(LAST_RAMP));
    let levels = inner.iter().filter(|&&(k, v)| region(k, v) == LEVEL);
    let cruise = levels.map(|&(_, v)| v).min().expect("a level part");
    let required: i64 = inner.iter().map(|&(_, v)| v).sum();
    let area = level * cruise;
    let remainder = required - ramp_area(START, rising) - area - ramp_area(END, falling);
    let sum_of = |envelope: fn(i64) -> i64| -> i64 { inner.iter().map(|&(k, _)| envelope(k)).sum() };
    let (lowest, highest) = (sum_of(lower), sum_of(upper));
    let lines = [
        (FIRST_RAMP, ramp_line(START, rising)),
        ("#2F7FA8", format!("{level} level ticks at the cruise {cruise}: {level} × {cruise} = {area}")),
        (LAST_RAMP, ramp_line(END, falling)),
        (INK, format!("Required sum {required}: the three areas, and {remainder} more, the remainder:")),
        (INK, format!("the first {remainder} level ticks have one fine step a tick more.")),
        (
            INK,
            format!(
                "The areas under the two envelopes are {lowest} and {highest}: the sum lies between, so it can be made."
            ),
        ),
    ];
    for (i, (colour, words)) in lines.iter().enumerate() {
        text(24, 424.0 + 18.0 * i as f64, colour, "start", words);
    }
}

fn main() -> Result<(), Refusal> {
    let planned = planned()?;
    let inner: Vec<(i64, i64)> = (1..TICKS).map(|k| (k, planned[k as usize])).collect();
    begin(730, 530, "A leg, its two envelopes and its three areas");
    heading(34, 16, &format!("A leg of {TICKS} ticks: two envelopes, three areas"));
    let units = "Velocities in units a tick, as the planner gives them; areas in fine steps, 256 to a unit.";
    text(24, 54.0, INK, "start", units);
    for &(k, v) in &inner {
        let (left, top, colour) = (x(k) - 11, y(v), region(k, v));
        println!(r#"<rect x="{left}" y="{top:.1}" width="22" height="{:.1}" fill="{colour}"/>"#, y(0) - top);
    }
    frame();
    for (k, v) in [(0, START), (TICKS, END)] {
        println!(r#"<circle cx="{}" cy="{:.1}" r="3.5" fill="{INK}"/>"#, x(k), y(FINE_STEPS * v));
    }
    captions(&inner);
    println!("</svg>");
    Ok(())
}
