//! The picture of a plan: for each axis position, velocity and acceleration with their limits, the
//! target's beside them and how both go on after arrival, and the sway of the pole, at each of its
//! rates, beside the sway that the same job would leave without the blend.

pub mod chart;
mod course;
mod page;
mod panel;
mod refused;
pub mod scale;
pub mod svg;
pub mod sway;
pub mod swing;
mod tour;

use polgamir::sheet::Sheet;
use polgamir::{Arrival, Axis, Job, Refusal, Row};

use crate::measure::{in_seconds, rounded, Measure};
use course::{Course, Moment, Ticks};
pub use page::Sample;
use page::{Page, Stack};
use panel::{Mark, Panel, Span, Timeline};
use scale::quantity;
use svg::{colour, stroke, Stroke};
use sway::{Point, Pole};
use swing::{Entered, Swing};

pub use page::AxisPictures;
pub use refused::draw_refusal;
pub use tour::{draw_tour, tour_pictures, LEGEND as TOUR_LEGEND};

/// The width of a panel that is a picture of its own on a page: readable at a third of a screen, on
/// a phone, and at a third of A4.
pub const PANEL_WIDTH: f64 = 290.0;

/// Draws the plan of a sheet.
pub fn draw(title: &str, sheet: &Sheet) -> Result<String, Refusal> {
    let page = page_of(title, sheet)?;
    Ok(page.draw())
}

/// The pictures of each axis of a sheet's plan, panel by panel.
pub fn pictures(title: &str, sheet: &Sheet) -> Result<Vec<AxisPictures>, Refusal> {
    Ok(page_of(title, sheet)?.of_each_axis(PANEL_WIDTH, "plan"))
}

/// What the lines of a job's pictures stand for.
pub fn key(sheet: &Sheet) -> Vec<(&'static str, Sample)> {
    let sways = sheet.job.entered().any(|(_, axis)| !Swing::of(axis, Entered::default()).is_empty());
    legend(&sheet.job, sways && Planned::of(&without_blend(&sheet.job)).is_ok())
}

/// The page of a sheet's plan.
fn page_of(title: &str, sheet: &Sheet) -> Result<Page, Refusal> {
    let planned = Planned::of(&sheet.job)?;
    let swings = |(number, axis)| Swing::of(axis, Entered::of(sheet.rounded(), number, axis));
    let sways = sheet.job.entered().any(|entered| !swings(entered).is_empty());
    let unblended = sways.then(|| Planned::of(&without_blend(&sheet.job)));
    let compared = unblended.as_ref().and_then(|unblended| unblended.as_ref().ok());
    let dwell = sheet.job.windows.map_or(0, |windows| windows.dwell());
    let last = planned.arrival + time_after(&sheet.job, planned.arrival).max(dwell + dwell / 4);
    let ticks = Ticks { arrival: planned.arrival, last };
    let stacks = sheet.job.entered().map(|(number, axis)| Stack {
        title: sheet.axis_title(number),
        pole: pole_of(axis),
        panels: panels_of(
            (number, axis),
            &swings((number, axis)),
            &Measure::of(sheet, number),
            &planned,
            compared,
            ticks,
        ),
    });
    Ok(Page {
        title: heading(title, sheet, planned.arrival),
        stacks: stacks.collect(),
        columns: page::columns_for(sheet.job.entered().count()),
        legend: legend(&sheet.job, compared.is_some()),
        caption: caption(&sheet.job, unblended.as_ref()) + &windows_told(&sheet.job),
        time: timeline(sheet, ticks),
    })
}

/// The arrival, the time after it and the windows.
fn timeline(sheet: &Sheet, ticks: Ticks) -> Timeline {
    let mut spans = vec![Span { from: ticks.arrival, to: ticks.last, colour: colour::AFTER }];
    for window in sheet.job.windows.iter().flat_map(|windows| windows.list()) {
        spans.push(Span { from: window.opening, to: window.closing, colour: colour::WINDOW });
    }
    let tick = sheet.tick_seconds();
    let label = match tick {
        Some(seconds) => format!("arrival {} s", rounded(f64::from(ticks.arrival) * seconds)),
        None => format!("arrival {}", ticks.arrival),
    };
    Timeline { tick, last: ticks.last, spans, marks: vec![Mark { tick: ticks.arrival, label }] }
}

/// What the lines and areas of a job's picture stand for; the sway without the blend
/// only where the picture compares.
fn legend(job: &Job, compares: bool) -> Vec<(&'static str, Sample)> {
    let mut legend = vec![
        ("plan", Sample::Line(stroke::PLAN)),
        ("target", Sample::Line(stroke::TARGET)),
        ("limit", Sample::Line(stroke::LIMIT)),
    ];
    if compares {
        legend.push(("sway without the blend, and its arrival", Sample::Line(stroke::UNBLENDED)));
    }
    legend.push(("after arrival", Sample::Area(colour::AFTER)));
    if job.windows.is_some() {
        legend.push(("window", Sample::Area(colour::WINDOW)));
    }
    legend
}

/// The title of the picture.
fn heading(title: &str, sheet: &Sheet, arrival: u32) -> String {
    let why = match sheet.job.arrival {
        Arrival::Earliest if sheet.job.windows.is_some() => "the earliest that fits a window",
        Arrival::Earliest => "the earliest",
        Arrival::At(_) => "as asked",
    };
    format!("{title}: arrival at tick {arrival}{}, {why}", in_seconds(arrival, sheet.tick_seconds()))
}

/// What a sway is.
pub const SWAY: &str =
    "Sway: that of an oscillator with the half period and the damping as entered, at rest at tick 0 and driven by the \
     table's accelerations. A real pole's sway is in proportion to it; it is not the tip in degrees.";

/// What is left of it.
pub const LEFT: &str =
    "Left: the greatest sway from arrival on, measured from where the pole comes to rest. On a pole that fits the \
     weight the exact plan leaves 0, which is proved; rounding the damping to a weight and the cells to 1/256 unit \
     leaves the rest.";

/// What a second sway is, after another sentence.
const SECOND: &str =
    " A pole with a second half period swings at two rates: its second sway is undamped and has a panel of its own.";

/// What the picture compares; `None` stands for a job without sway.
fn caption(job: &Job, unblended: Option<&Result<Planned, Refusal>>) -> String {
    let Some(unblended) = unblended else {
        return "No axis has a half period, so no sway is drawn.".into();
    };
    let comparison = match unblended {
        Ok(unblended) => format!("which arrives at tick {}", unblended.arrival),
        Err(refusal) => format!("which is refused with {} and not drawn", refusal.number()),
    };
    let (second, and_none) = match job.entered().any(|(_, axis)| axis.second_half_period.is_some()) {
        true => (SECOND, " and no second one"),
        false => ("", ""),
    };
    format!(
        "{SWAY}{second} {LEFT} Without the blend: the same job planned with half period 0 on every axis{and_none}, \
         {comparison}."
    )
}

/// What the windows of a job are, after another sentence.
fn windows_told(job: &Job) -> String {
    match &job.windows {
        None => String::new(),
        Some(windows) => format!(" Windows: the head arrives in one and stays {} ticks within it.", windows.dwell()),
    }
}

/// The job with half period 0 on every axis, and no second one.
pub fn without_blend(job: &Job) -> Job {
    let mut job = *job;
    for axis in job.axes.iter_mut().flatten() {
        axis.half_period = 0;
        axis.second_half_period = None;
    }
    job
}

/// The ticks to draw after the arrival: a period or two of the slowest pole, so that
/// what is left of the sway shows.
fn time_after(job: &Job, arrival: u32) -> u32 {
    let slowest = |axis: &Axis| axis.half_period.max(axis.second_half_period.unwrap_or(0));
    let half_period = job.entered().map(|(_, axis)| slowest(axis)).max().unwrap_or(0);
    match half_period {
        0 => (arrival / 12).max(1),
        half_period => (arrival / 2).clamp(2 * half_period, 4 * half_period),
    }
}

/// A planned job: its arrival and each axis's rows.
pub struct Planned {
    arrival: u32,
    rows: [Vec<Moment>; polgamir::AXES],
}

impl Planned {
    /// Plans a job.
    pub fn of(job: &Job) -> Result<Planned, Refusal> {
        let plan = job.plan()?;
        let of_axis = |axis: usize| move |row: Row| row.axis(axis).as_ref().map(Moment::of_row);
        let rows = std::array::from_fn(|axis| plan.rows().filter_map(of_axis(axis)).collect());
        Ok(Planned { arrival: plan.arrival(), rows })
    }

    /// The accelerations of an axis in units per tick².
    pub fn accelerations(&self, number: usize) -> Vec<f64> {
        self.rows[number].iter().map(|row| row.acceleration).collect()
    }
}

/// The pole of an axis, as its heading says it.
fn pole_of(axis: &Axis) -> String {
    let first = format!("half period {}, {}{}", axis.half_period, axis.damping, weight_of(axis));
    match (axis.half_period, axis.second_half_period) {
        (0, None) => "no blend".into(),
        (0, Some(second)) => format!("second half period {second}"),
        (_, None) => first,
        (_, Some(second)) => format!("{first}, second half period {second}"),
    }
}

/// The weight that stands for damping as measured, between brackets.
fn weight_of(axis: &Axis) -> String {
    match axis.damping.weight() {
        Some(weight) if axis.damping.is_measured() => format!(" (weight {weight})"),
        _ => String::new(),
    }
}

/// The panels of an axis; those of the sway only where the axis has a half period, one for each.
fn panels_of(
    (number, axis): (usize, &Axis),
    swings: &[Swing],
    measure: &Measure,
    planned: &Planned,
    unblended: Option<&Planned>,
    ticks: Ticks,
) -> Vec<Panel> {
    let course = |quantity: &dyn Fn(Moment) -> f64| Course::of(&planned.rows[number], &axis.target, ticks, quantity);
    let [position, velocity, acceleration] = measure.names();
    let mut panels = vec![
        position_panel(format!("position, {position}"), course(&|moment| measure.position(moment.position))),
        limited_panel(
            format!("velocity, {velocity}"),
            measure.velocity(axis.speed_limit.into()),
            course(&|moment| measure.velocity(moment.velocity)),
        ),
        limited_panel(
            format!("acceleration, {acceleration}"),
            measure.acceleration(axis.acceleration_limit.into()),
            stepped(course(&|moment| measure.acceleration(moment.acceleration))),
        ),
    ];
    // A pole's sway is in proportion to the accelerations, so that it is in the measure of these.
    let scaled = |planned: &Planned| -> Vec<f64> {
        planned.accelerations(number).into_iter().map(|units| measure.position(units)).collect()
    };
    let (with, without) = (scaled(planned), unblended.map(scaled));
    for swing in swings {
        panels.push(sway_panel(sway_name(swing, &position), swing.pole(), &with, without.as_deref(), ticks));
    }
    panels
}

/// The name of a panel of sway.
fn sway_name(swing: &Swing, measure: &str) -> String {
    format!("{} in proportion, {measure}", swing.name())
}

/// The curves of a course, the target's at the top, where it shows on that of the plan.
fn curves_of(course: Course) -> Vec<(Vec<Point>, Stroke)> {
    vec![(course.plan, stroke::PLAN), (course.after, stroke::PLAN_AFTER), (course.target, stroke::TARGET)]
}

/// The panel of the position.
fn position_panel(name: String, course: Course) -> Panel {
    let range = panel::range_of(course.shown());
    Panel { name, remark: String::new(), range, limits: Vec::new(), curves: curves_of(course) }
}

/// A course in steps: each row's acceleration holds until the next.
fn stepped(course: Course) -> Course {
    let mut steps = Vec::new();
    for pair in course.plan.windows(2) {
        steps.extend([pair[0], (pair[1].0, pair[0].1)]);
    }
    steps.extend(course.plan.last());
    Course { plan: steps, ..course }
}

/// A panel of a course with limits.
fn limited_panel(name: String, limit: f64, course: Course) -> Panel {
    let (range, limits, remark) = panel::limited(course.shown(), limit);
    Panel { name, remark, range, limits, curves: curves_of(course) }
}

/// The panel of the sway, beside that without the blend, whose arrival is an upright line.
fn sway_panel(name: String, pole: Pole, accelerations: &[f64], without_blend: Option<&[f64]>, ticks: Ticks) -> Panel {
    let sway = pole.sway(accelerations, ticks.last);
    let mut remark = format!("left {}", quantity(sway.remaining));
    let mut curves = vec![(sway.curve, stroke::PLAN)];
    if let Some(accelerations) = without_blend {
        let without = pole.sway(accelerations, ticks.last);
        remark += &format!("; without blend {}", quantity(without.remaining));
        curves.insert(0, (without.curve, stroke::UNBLENDED));
    }
    let range = panel::range_of(curves.iter().flat_map(|(curve, _)| curve).map(|&(_, value)| value));
    if let Some(accelerations) = without_blend {
        let arrival = accelerations.len() as f64 - 1.0;
        curves.insert(0, (vec![(arrival, range.0), (arrival, range.1)], stroke::UNBLENDED_ARRIVAL));
    }
    Panel { name, remark, range, limits: Vec::new(), curves }
}
