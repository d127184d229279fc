//! The timeline of a tour: for each axis position, velocity and sway from the tour's start to its
//! end.

use polgamir::sheet::TourSheet;
use polgamir::{Axis, Job, Schedule, TourRefusal};

use super::course::Moment;
use super::page::{AxisPictures, Page, Sample, Stack};
use super::panel::{self, Mark, Panel, Span, Timeline};
use super::scale::{self, quantity};
use super::svg::{colour, stroke};
use super::sway::Point;
use super::swing::{Entered, Swing};
use super::{pole_of, sway_name, Planned, SECOND};
use crate::measure::{in_seconds, Measure};

/// The width of a timeline's plots.
const WIDTH: f64 = 900.0;

/// What a timeline shows.
const CAPTION: &str =
    "Upright lines are arrivals, each with its stop's number; the head then rests for the dwell. Sway: that of an \
     oscillator with the half period and the damping as entered, at rest at tick 0 and driven by the accelerations of \
     the legs' tables. A real pole's sway is in proportion to it; it is not the tip in degrees. Left: the greatest \
     sway from an arrival to the next departure. On a pole that fits the weight the exact plan leaves 0, which is \
     proved of every leg; rounding the damping to a weight and the cells to 1/256 unit leaves the rest.";

/// What the timeline of a sheet shows.
fn caption(sheet: &TourSheet) -> String {
    let second = sheet.tour.entered().any(|(_, axis)| axis.second_half_period.is_some());
    CAPTION.to_owned() + if second { SECOND } else { "" }
}

/// Draws the timeline of a tour.
pub fn draw_tour(title: &str, sheet: &TourSheet) -> Result<String, TourRefusal> {
    Ok(page_of(title, sheet)?.draw())
}

/// The pictures of each axis of a tour, panel by panel, of a width; names begin with a prefix.
pub fn tour_pictures(sheet: &TourSheet, width: f64, prefix: &str) -> Result<Vec<AxisPictures>, TourRefusal> {
    Ok(page_of("", sheet)?.of_each_axis(width, prefix))
}

/// What the lines and areas of a timeline stand for.
pub const LEGEND: [(&str, Sample); 5] = [
    ("plan", Sample::Line(stroke::PLAN)),
    ("stop", Sample::Line(stroke::TARGET)),
    ("limit", Sample::Line(stroke::LIMIT)),
    ("arrival", Sample::Line(stroke::STOP)),
    ("dwell", Sample::Area(colour::DWELL)),
];

/// The page of a tour's timeline.
fn page_of(title: &str, sheet: &TourSheet) -> Result<Page, TourRefusal> {
    let schedule = sheet.tour.schedule(&sheet.stops)?;
    let legs = legs_of(sheet)?;
    let stays = stays_of(sheet, &schedule);
    let stacks = sheet.tour.entered().map(|(number, _)| {
        let way = Way::of(sheet, number, &legs, &stays);
        let swings = Swing::of(&way.axis, Entered::of(sheet.rounded(), number, &way.axis));
        let panels = way.panels(&swings, &stays, &Measure::of_tour(sheet, number));
        Stack { title: sheet.axis_title(number), pole: pole_of(&way.axis), panels }
    });
    Ok(Page {
        title: format!(
            "{title}: {} stops in {} ticks{}",
            sheet.stops.len(),
            scale::label(schedule.total.into(), 1.0),
            in_seconds(schedule.total, sheet.tick_seconds())
        ),
        stacks: stacks.collect(),
        columns: (1, WIDTH),
        legend: LEGEND.to_vec(),
        caption: caption(sheet),
        time: timeline(&stays, schedule.total, sheet.tick_seconds()),
    })
}

/// A leg of a tour: its job and its plan.
struct Leg {
    job: Job,
    planned: Planned,
}

/// The legs of a tour.
fn legs_of(sheet: &TourSheet) -> Result<Vec<Leg>, TourRefusal> {
    let jobs = (0..).map_while(|stop| sheet.tour.leg(&sheet.stops, stop));
    let legs = jobs.enumerate().map(|(stop, job)| match Planned::of(&job) {
        Ok(planned) => Ok(Leg { job, planned }),
        Err(refusal) => Err(TourRefusal::Leg { stop, refusal }),
    });
    legs.collect()
}

/// The stay at a stop: the arrival, and the departure after the dwell.
#[derive(Debug, Clone, Copy)]
struct Stay {
    arrival: u32,
    departure: u32,
}

/// The stays of a tour.
fn stays_of(sheet: &TourSheet, schedule: &Schedule) -> Vec<Stay> {
    let stays = schedule.arrivals.iter().zip(&sheet.stops);
    stays.map(|(&arrival, stop)| Stay { arrival, departure: arrival + stop.dwell }).collect()
}

/// The arrivals and the dwells.
fn timeline(stays: &[Stay], total: u32, tick: Option<f64>) -> Timeline {
    let span = |stay: &Stay| Span { from: stay.arrival, to: stay.departure, colour: colour::DWELL };
    let mark = |(stop, stay): (usize, &Stay)| Mark { tick: stay.arrival, label: stop.to_string() };
    Timeline {
        tick,
        last: total.max(1),
        spans: stays.iter().map(span).collect(),
        marks: stays.iter().enumerate().map(mark).collect(),
    }
}

/// The way of an axis through a tour.
struct Way {
    /// The axis in the first leg; limits and pole are the same in all.
    axis: Axis,
    /// The rows of every tick from the tour's start to its end.
    rows: Vec<Moment>,
    /// Where the axis is to be, from each departure to the next.
    stops: Vec<Point>,
}

impl Way {
    /// The way of an axis, leg after leg, at rest from each arrival to the next departure,
    /// whose row is the next leg's first.
    fn of(sheet: &TourSheet, number: usize, legs: &[Leg], stays: &[Stay]) -> Way {
        let mut rows: Vec<Moment> = Vec::new();
        let mut stops = Vec::new();
        let mut last_row = None;
        for ((leg, stay), stop) in legs.iter().zip(stays).zip(&sheet.stops) {
            let position = stop.positions[number] as f64;
            stops.extend([(rows.len() as f64, position), (stay.departure.into(), position)]);
            rows.extend(&leg.planned.rows[number]);
            last_row = rows.last().copied();
            rows.resize(stay.departure as usize, rows[rows.len() - 1]);
        }
        rows.extend(last_row);
        Way { axis: legs[0].job.axes[number].expect("an axis of the tour"), rows, stops }
    }

    /// A quantity over the ticks.
    fn curve(&self, quantity: impl Fn(&Moment) -> f64) -> Vec<Point> {
        (0..).zip(&self.rows).map(|(tick, row): (u32, _)| (tick.into(), quantity(row))).collect()
    }

    /// The panels; those of the sway only where the axis has a half period, one for each.
    fn panels(&self, swings: &[Swing], stays: &[Stay], measure: &Measure) -> Vec<Panel> {
        let mut panels = vec![self.position_panel(measure), self.velocity_panel(measure)];
        panels.extend(swings.iter().map(|swing| self.sway_panel(swing, stays, measure)));
        panels
    }

    /// The panel of the position.
    fn position_panel(&self, measure: &Measure) -> Panel {
        let positions = self.curve(|row| measure.position(row.position));
        let range = panel::range_of(positions.iter().map(|&(_, position)| position));
        let stops = self.stops.iter().map(|&(tick, position)| (tick, measure.position(position))).collect();
        let curves = vec![(positions, stroke::PLAN), (stops, stroke::TARGET)];
        Panel {
            name: format!("position, {}", measure.names()[0]),
            remark: String::new(),
            range,
            limits: Vec::new(),
            curves,
        }
    }

    /// The panel of the velocity with its limits.
    fn velocity_panel(&self, measure: &Measure) -> Panel {
        let velocities = self.curve(|row| measure.velocity(row.velocity));
        let shown = velocities.iter().map(|&(_, velocity)| velocity);
        let (range, limits, remark) = panel::limited(shown, measure.velocity(self.axis.speed_limit.into()));
        Panel {
            name: format!("velocity, {}", measure.names()[1]),
            remark,
            range,
            limits,
            curves: vec![(velocities, stroke::PLAN)],
        }
    }

    /// The panel of a sway.
    fn sway_panel(&self, swing: &Swing, stays: &[Stay], measure: &Measure) -> Panel {
        let accelerations: Vec<f64> = self.rows.iter().map(|row| measure.position(row.acceleration)).collect();
        let curve = swing.pole().sway(&accelerations, accelerations.len() as u32 - 1).curve;
        let stays_at =
            |tick: f64| stays.iter().any(|stay| (stay.arrival.into()..=stay.departure.into()).contains(&tick));
        let left = curve.iter().filter(|&&(tick, _)| stays_at(tick)).map(|&(_, sway)| sway.abs()).fold(0.0, f64::max);
        let remark = format!("left {}", quantity(left));
        let range = panel::range_of(curve.iter().map(|&(_, sway)| sway));
        Panel {
            name: sway_name(swing, &measure.names()[0]),
            remark,
            range,
            limits: Vec::new(),
            curves: vec![(curve, stroke::PLAN)],
        }
    }
}
