//! The report of a tour: its arrivals and its timeline, and what a maker asks first, of all legs
//! together.
//!
//! Each leg is a job of its own, from rest to rest, and is asked what the job of a report is asked;
//! of the answers the worst is told.

use polgamir::sheet::{Sheet, TourSheet};
use polgamir::{Schedule, TourRefusal};

use super::entry::Entry;
use super::html::{self, Cell};
use super::rows::{self, Miss, Nearest};
use super::told::{
    at_tick, cost_of, cost_told, earlier_told, fine_steps, halves, left_card, limit_row, planned_by, rounded_entries,
};
use super::wrong_pole::WrongPole;
use super::{as_entered, tap, wrong_axis, Record, Report};
use crate::command::summary::NOT_LIMITED;
use crate::measure::{in_seconds, rounded};
use crate::picture::svg::escaped;
use crate::picture::{self, Sample, PANEL_WIDTH, TOUR_LEGEND};

/// The report of a tour whose text is as entered.
pub fn written(title: &str, entered: &str, sheet: &TourSheet, records: &[Record]) -> Result<String, TourRefusal> {
    let schedule = sheet.tour.schedule(&sheet.stops)?;
    let jobs: Vec<Sheet> = (0..).map_while(|stop| sheet.leg(stop)).collect();
    let of_leg = |(stop, job)| Report::of(job).map_err(|refusal| TourRefusal::Leg { stop, refusal });
    let legs = jobs.iter().enumerate().map(of_leg).collect::<Result<_, _>>()?;
    let report = TourReport { sheet, schedule, legs };
    let legs: Vec<Vec<&Entry>> = report.axes().collect();
    let poles: Vec<(&Entry, Vec<WrongPole>)> = legs.iter().map(|legs| (legs[0], WrongPole::all_of(legs))).collect();
    let body = [
        format!("<h1>{}</h1>\n", escaped(title)),
        format!("<p class=\"sub\">{}</p>\n", report.headline()),
        html::cards(&report.cards()),
        rounded_entries(sheet.rounded()),
        html::section("The answer", &(report.answer() + &report.ranges())),
        html::section("If the pole is as entered", &as_entered::section(&poles)),
        html::long_section("Axis by axis, and if the pole was measured wrongly", &report.axis_blocks(&poles)?),
        tap::section(&poles, records),
        html::section("What the blend costs", &report.cost()),
        html::section("What sets each arrival, and one tick earlier", &report.arrivals()),
        html::section("How near each axis is to its limits", &report.limits()),
        html::section("Carrying a row on", &report.misses()),
        html::section("How these numbers were made", &html::paragraph(&format!("{LEGS} {}", super::METHOD))),
        html::section("The set-up sheet, as entered", &html::as_written(entered)),
    ];
    Ok(html::page(&format!("{title}: report"), &body.concat()))
}

/// The width of a timeline on a screen and on paper.
const TIMELINE_WIDTH: f64 = 900.0;

/// What the pictures show.
const PLAN: &str = "Position, velocity and sway of each axis from the tour's start to its end, with the limits of its \
    speed. Upright lines are arrivals, each with its stop's number; the head then rests for the dwell. Sway is in \
    proportion to the real pole's, at each of its rates; it is not the tip in degrees. At the stops there should be \
    next to none.";

/// What the numbers of a tour are made from.
const LEGS: &str =
    "Each leg is planned as a job of its own, from rest to rest, and its sway begins with the pole at rest.";

/// What the report of a tour tells of.
struct TourReport<'s> {
    sheet: &'s TourSheet,
    schedule: Schedule,
    /// The report of each leg's job, one at least.
    legs: Vec<Report<'s>>,
}

impl TourReport<'_> {
    /// The line below the title.
    fn headline(&self) -> String {
        let stops = match self.sheet.stops.len() {
            1 => "1 stop".into(),
            count => format!("{count} stops"),
        };
        format!("Tour of {stops}, {}", planned_by(self.legs[0].axes.len(), self.sheet.tick_seconds()))
    }

    /// Each axis, as its part in every leg.
    fn axes(&self) -> impl Iterator<Item = Vec<&Entry<'_>>> {
        (0..self.legs[0].axes.len()).map(|index| self.legs.iter().map(|leg| &leg.axes[index]).collect())
    }

    /// What is read first.
    fn cards(&self) -> Vec<(String, String)> {
        let tick = self.sheet.tick_seconds();
        let total = self.schedule.total;
        let mut cards = vec![(
            format!("{total} ticks{}", in_seconds(total, tick)),
            "from the start to the end of the last dwell".to_string(),
        )];
        let costs: Option<i64> = self.legs.iter().map(leg_cost).sum();
        if let (true, Some(cost)) = (self.legs[0].blends(), costs) {
            cards.push((cost_told(cost, tick), "is what the blend costs, of all legs together".into()));
        }
        for legs in self.axes() {
            cards.extend(WrongPole::all_of(&legs).iter().map(|pole| left_card(legs[0], pole)));
        }
        let misses = self.legs.iter().flat_map(|leg| &leg.axes).flat_map(|entry| rows::worst_misses(&entry.rows));
        let worst = misses.map(|miss| miss.halves).max();
        cards.push((fine_steps(worst.unwrap_or(0)), "worst carry miss, of 3/2 at most".into()));
        cards
    }

    /// The arrivals and the total.
    fn answer(&self) -> String {
        let total = self.schedule.total;
        let text = format!(
            "Accepted: number 0, total {total} ticks{}. Ticks count from the tour's start. Each leg starts at rest \
             where the last one ended, after its dwell, and arrives as early as it can.",
            in_seconds(total, self.sheet.tick_seconds())
        );
        let measures = self.legs[0].axes.iter().map(|entry| format!("{}, {}", entry.title, entry.position_name()));
        let names = ["stop", "leg takes", "arrival", "dwell", "departure"].map(String::from);
        let headings: Vec<String> = names.into_iter().chain(measures).collect();
        let headings: Vec<&str> = headings.iter().map(String::as_str).collect();
        let row = |(stop, leg): (usize, &Report)| -> Vec<Cell> {
            let (arrival, dwell) = (self.schedule.arrivals[stop], self.sheet.stops[stop].dwell);
            let times = [stop as u32, leg.plan.arrival(), arrival, dwell, arrival + dwell].map(|tick| tick.to_string());
            let positions = leg
                .axes
                .iter()
                .map(|entry| rounded(entry.measure.position(self.sheet.stops[stop].positions[entry.number] as f64)));
            times.into_iter().chain(positions).map(Cell::Number).collect()
        };
        let rows: Vec<Vec<Cell>> = self.legs.iter().enumerate().map(row).collect();
        html::paragraph(&text) + &html::table(&headings, &rows)
    }

    /// The least and the greatest position of each axis over all legs.
    fn ranges(&self) -> String {
        let row = |legs: Vec<&Entry>| -> Vec<Cell> {
            let positions = || legs.iter().flat_map(|entry| &entry.rows).map(|row| row.position);
            let entry = legs[0];
            let shown = |cell: Option<i64>| {
                Cell::Number(rounded(entry.measure.position(polgamir::in_units(cell.unwrap_or(0)))))
            };
            vec![
                Cell::Words(entry.title.clone()),
                shown(positions().min()),
                shown(positions().max()),
                Cell::Words(entry.position_name()),
            ]
        };
        let rows: Vec<Vec<Cell>> = self.axes().map(row).collect();
        html::paragraph(NOT_LIMITED) + &html::table(&["axis", "least position", "greatest position", "in"], &rows)
    }

    /// For each axis its timeline, and what is left over the errors of half period and damping.
    fn axis_blocks(&self, poles: &[(&Entry, Vec<WrongPole>)]) -> Result<String, TourRefusal> {
        let entries: Vec<(Sample, String)> = TOUR_LEGEND.iter().map(|&(name, sample)| (sample, name.into())).collect();
        let mut text = html::paragraph(PLAN) + &html::key(&entries);
        let swings = poles.iter().map(|(_, poles)| poles.len()).sum();
        if let Some(pole) = poles.iter().flat_map(|(_, poles)| poles).next() {
            let name = pole.tables_name();
            text += &(html::paragraph(&wrong_axis::told(name)) + &wrong_axis::key(name));
        }
        let wide = picture::tour_pictures(self.sheet, TIMELINE_WIDTH, "wide")?;
        let narrow = picture::tour_pictures(self.sheet, PANEL_WIDTH, "narrow")?;
        for ((wide, narrow), (entry, poles)) in wide.iter().zip(&narrow).zip(poles) {
            let charts = poles.iter().enumerate().flat_map(|(index, pole)| wrong_axis::charts(entry, pole, index));
            let body = html::heading(&wide.title, &wide.pole)
                + &html::block("timeline onscreen", &wide.panels.concat())
                + &html::block("timeline onphone", &narrow.panels.concat())
                + &html::block("pictures", &charts.collect::<String>())
                + &wrong_axis::numbers(entry, poles, swings);
            text += &html::block("axis", &body);
        }
        Ok(text)
    }

    /// What the blend costs in ticks.
    fn cost(&self) -> String {
        if !self.legs[0].blends() {
            return html::paragraph("No axis has a half period: there is no blend, and it costs nothing.");
        }
        let of = |ticks: Option<i64>| Cell::Number(ticks.map_or("–".into(), |ticks| ticks.to_string()));
        let line = |name: String, with: Option<i64>, without: Option<i64>, cost: Option<i64>| {
            vec![Cell::Words(name), of(with), of(without), of(cost)]
        };
        let with = |leg: &Report| leg.arrivals.least.map(i64::from);
        let without = |leg: &Report| leg.arrivals.least_unblended.map(i64::from);
        let mut rows: Vec<Vec<Cell>> = Vec::new();
        for (stop, leg) in self.legs.iter().enumerate() {
            rows.push(line(format!("leg to stop {stop}"), with(leg), without(leg), leg_cost(leg)));
        }
        let [all_with, all_without] = [self.legs.iter().map(with).sum(), self.legs.iter().map(without).sum()];
        rows.push(line("all legs".into(), all_with, all_without, self.legs.iter().map(leg_cost).sum()));
        let text = "The ticks of each leg, as entered and without a half period on any axis. A leg costs the half \
            periods of the axis that sets its arrival, or less where another axis would set it without the blend.";
        html::paragraph(text) + &html::table(&["", "with the blend", "without", "costs, ticks"], &rows)
    }

    /// What sets the arrival of each leg, and why it is not one tick earlier.
    fn arrivals(&self) -> String {
        let row = |(stop, leg): (usize, &Report)| -> Vec<Cell> {
            let setting: Vec<usize> = leg.arrivals.setting(leg.arrivals.found).collect();
            let told = leg.axes.iter().zip(&leg.arrivals.axes).filter(|(entry, _)| setting.contains(&entry.number));
            let told = told.map(|(entry, alone)| match setting.len() {
                1 => earlier_told(entry, alone, leg.plan.arrival()),
                _ => format!("{}: {}", entry.title, earlier_told(entry, alone, leg.plan.arrival())),
            });
            vec![
                Cell::Number(stop.to_string()),
                Cell::Number(leg.plan.arrival().to_string()),
                Cell::Words(leg.titles(setting.iter().copied())),
                Cell::Words(told.collect::<Vec<_>>().join("; ")),
            ]
        };
        let rows: Vec<Vec<Cell>> = self.legs.iter().enumerate().map(row).collect();
        let text = "A leg starts and ends at rest, so that it takes the ticks of its slowest axis; the others are \
            planned to arrive with it.";
        html::paragraph(text) + &html::table(&["stop", "leg takes", "set by", "one tick earlier"], &rows)
    }

    /// How near each axis is to its limits in any leg.
    fn limits(&self) -> String {
        let rows: Vec<Vec<Cell>> = self
            .axes()
            .flat_map(|legs| {
                let entry = legs[0];
                let ([_, speed, acceleration], [_, speeds, accelerations]) =
                    (entry.measure.sizes(), entry.measure.names());
                [
                    limits_row(&legs, 0, format!("{}, speed", entry.title), speed, &speeds),
                    limits_row(&legs, 1, format!("{}, acceleration", entry.title), acceleration, &accelerations),
                ]
            })
            .collect();
        let text = "The greatest sizes among the cells of all legs. Ticks count from the leg's own start; rows at the \
            limit are those of all legs.";
        let headings = ["", "of the limit", "greatest", "limit", "in", "at tick", "rows at the limit", "leg to stop"];
        html::paragraph(text) + &html::table(&headings, &rows)
    }

    /// The worst carry misses of the legs' tables.
    fn misses(&self) -> String {
        let row = |legs: Vec<&Entry>| -> Vec<Cell> {
            let worst = |quantity: usize| {
                let misses = legs.iter().map(|entry| rows::worst_misses(&entry.rows)[quantity]).enumerate();
                worst_of(misses, |miss: &Miss| miss.halves).unwrap_or((0, Miss { halves: 0, tick: 0 }))
            };
            let cells = [worst(0), worst(1)].into_iter().flat_map(|(stop, miss)| {
                let stop = if miss.halves == 0 { "–".into() } else { stop.to_string() };
                [halves(miss.halves), at_tick(miss), stop]
            });
            std::iter::once(Cell::Words(legs[0].title.clone())).chain(cells.map(Cell::Number)).collect()
        };
        let rows: Vec<Vec<Cell>> = self.axes().map(row).collect();
        let text = format!("{} Of the tables of this tour the worst misses are:", super::CARRIED);
        let headings = [
            "axis",
            "position, fine steps",
            "from row",
            "of the leg to stop",
            "velocity, fine steps",
            "from row",
            "of the leg to stop",
        ];
        html::paragraph(&text) + &html::table(&headings, &rows)
    }
}

/// What the blend costs a leg.
fn leg_cost(leg: &Report) -> Option<i64> {
    cost_of(leg.arrivals.least, leg.arrivals.least_unblended)
}

/// The greatest of numbered things, the first where several are as great.
fn worst_of<T>(things: impl Iterator<Item = (usize, T)>, size: impl Fn(&T) -> i64) -> Option<(usize, T)> {
    things.reduce(|worst, next| if size(&next.1) > size(&worst.1) { next } else { worst })
}

/// A line of the limits, speed or acceleration, with the leg that comes nearest.
fn limits_row(legs: &[&Entry], quantity: usize, name: String, size: f64, measure: &str) -> Vec<Cell> {
    let of_legs = || legs.iter().map(|entry| rows::nearest(entry.axis, &entry.rows)[quantity]);
    let (stop, nearest) = worst_of(of_legs().enumerate(), |nearest| nearest.size).expect("a tour has a leg");
    let rows_at_limit = of_legs().map(|nearest| nearest.rows_at_limit).sum();
    let mut cells = limit_row(name, Nearest { rows_at_limit, ..nearest }, size, measure);
    cells.push(Cell::Number(stop.to_string()));
    cells
}
