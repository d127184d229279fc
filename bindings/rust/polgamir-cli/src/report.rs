//! The report of a plan, or of a tour: one HTML page with the sheet as entered, the answer, the
//! pictures, and what a maker asks first.
//!
//! Arrivals and raises are the planner's own answers, limits and misses are read off the table, and
//! the sway is that of `picture::sway`, which is tested against the oscillator's closed form.

mod arrivals;
mod as_entered;
mod bound;
mod entry;
mod html;
mod refused;
pub mod rows;
mod set_by;
mod tap;
mod told;
mod tour;
mod wrong_axis;
mod wrong_pole;

use polgamir::sheet::Sheet;
use polgamir::{in_units, Arrival, Plan, Refusal, LATEST_ARRIVAL};

use crate::command::summary::NOT_LIMITED;
use crate::measure::{in_seconds, rounded};
use crate::picture::{self, without_blend, Planned};
use arrivals::Arrivals;
use entry::Entry;
use html::Cell;
use told::{
    at_tick, cost_of, cost_told, earlier_told, fine_steps, halves, left_card, limit_row, planned_by, rounded_entries,
};
use wrong_pole::WrongPole;

pub use refused::refused;
pub use tap::Record;
pub use tour::written as written_of_tour;

/// The report of a sheet whose text is as entered; job words have the sheet that stands for them.
pub fn written(title: &str, entered: &str, sheet: &Sheet, records: &[Record]) -> Result<String, Refusal> {
    let report = Report::of(sheet)?;
    let poles: Vec<(&Entry, Vec<WrongPole>)> = report.axes.iter().map(|entry| (entry, entry.wrong_poles())).collect();
    let body = [
        format!("<h1>{}</h1>\n", picture::svg::escaped(title)),
        format!("<p class=\"sub\">{}</p>\n", report.headline()),
        html::cards(&report.cards()),
        rounded_entries(sheet.rounded()),
        html::section("The answer", &report.answer()),
        html::section("If the pole is as entered", &as_entered::section(&poles)),
        html::long_section("Axis by axis, and if the pole was measured wrongly", &report.axis_blocks(title, &poles)?),
        tap::section(&poles, records),
        html::section("What the blend costs", &report.cost()),
        html::section("What sets the arrival, and one tick earlier", &report.arrivals()),
        html::section("How near each axis is to its limits", &report.limits()),
        html::section("Carrying a row on", &report.misses()),
        html::section("How these numbers were made", &html::paragraph(METHOD)),
        html::section("The set-up sheet, as entered", &html::as_written(entered)),
    ];
    Ok(html::page(&format!("{title}: report"), &body.concat()))
}

/// How the numbers of a report were made.
const METHOD: &str = "Arrival and table are those of the proved planner, which lands on the target exactly and leaves \
    no sway before rounding on a pole that fits half period and weight. Other arrivals, and the limits that would do, \
    are its answers to the same job with the half periods, the asked tick or one limit changed. Positions, limits and \
    carry misses are read off the table's cells. The sway is computed: an oscillator with the half period and the \
    swing ratio that are named, at rest at tick 0, follows each row's acceleration until the next row, by the exact \
    solution for a constant acceleration; nothing is approximated but by double-precision floats. What rounding leaves \
    is computed from the exact accelerations, which are worked out again from the method and checked against every \
    cell. The bound is the theorem sway-most, worked out in whole numbers and rounded upward.";

/// What a carry miss is.
const CARRIED: &str = "A row that is carried on by one tick, to position + velocity + acceleration / 2 and velocity + \
    acceleration, misses the next row by at most 3/2 fine steps of 1/256 unit; this is proved of every table.";

/// What a report tells of.
struct Report<'s> {
    sheet: &'s Sheet,
    plan: Plan,
    axes: Vec<Entry<'s>>,
    arrivals: Arrivals,
}

impl<'s> Report<'s> {
    /// Plans a sheet, and what it is compared with.
    fn of(sheet: &'s Sheet) -> Result<Report<'s>, Refusal> {
        let plan = sheet.job.plan()?;
        let planned = Planned::of(&sheet.job)?;
        let unblended = Planned::of(&without_blend(&sheet.job)).ok();
        let entry = |entered| Entry::of(sheet, entered, &plan, &planned, unblended.as_ref());
        let axes = sheet.job.entered().map(entry).collect();
        let arrivals = Arrivals::of(&sheet.job, plan.arrival());
        Ok(Report { sheet, plan, axes, arrivals })
    }

    /// Whether some axis is planned with a blend.
    fn blends(&self) -> bool {
        self.axes.iter().any(|entry| entry.delay() > 0)
    }

    /// A tick, with its seconds where they are known.
    fn tick(&self, tick: u32) -> String {
        format!("tick {tick}{}", in_seconds(tick, self.sheet.tick_seconds()))
    }

    /// The titles of axes as words of a sentence.
    fn titles(&self, numbers: impl Iterator<Item = usize>) -> String {
        let titles: Vec<String> = numbers.map(|number| self.sheet.axis_title(number)).collect();
        match titles.split_last() {
            None => "no axis".into(),
            Some((only, [])) => only.clone(),
            Some((last, before)) => format!("{} and {last}", before.join(", ")),
        }
    }

    /// The line below the title.
    fn headline(&self) -> String {
        format!("Motion table of {}", planned_by(self.axes.len(), self.sheet.tick_seconds()))
    }

    /// What is read first.
    fn cards(&self) -> Vec<(String, String)> {
        let asked = match self.sheet.job.arrival {
            Arrival::Earliest if self.sheet.job.windows.is_some() => "the earliest that fits a window",
            Arrival::Earliest => "the earliest",
            Arrival::At(_) => "as asked",
        };
        let mut cards = vec![
            (self.tick(self.plan.arrival()), format!("arrival, {asked}")),
            (self.setter(), "sets the arrival".into()),
        ];
        if let (true, Some(cost)) = (self.blends(), cost_of(self.arrivals.least, self.arrivals.least_unblended)) {
            cards.push((cost_told(cost, self.sheet.tick_seconds()), "is what the blend costs".into()));
        }
        for entry in &self.axes {
            cards.extend(entry.wrong_poles().iter().map(|pole| left_card(entry, pole)));
        }
        let worst = self.axes.iter().flat_map(|entry| rows::worst_misses(&entry.rows)).map(|miss| miss.halves).max();
        cards.push((fine_steps(worst.unwrap_or(0)), "worst carry miss, of 3/2 at most".into()));
        cards
    }

    /// What sets the arrival, in short.
    fn setter(&self) -> String {
        let mut setting = self.arrivals.setting(self.arrivals.found).peekable();
        match self.arrivals.least {
            _ if self.sheet.job.arrival != Arrival::Earliest => "the sheet".into(),
            Some(least) if least < self.arrivals.found => "a window".into(),
            _ if setting.peek().is_some() => self.titles(setting),
            _ => "all axes together".into(),
        }
    }

    /// The answer, where the table begins and ends, and how far each axis goes.
    fn answer(&self) -> String {
        let arrival = self.plan.arrival();
        let text = format!(
            "Accepted: number 0, mask {}, arrival {}. The table has rows 0 to {arrival} and {} cells. Row 0 is on the \
             start and row {arrival} on the target, both exactly. The least and the greatest position are those of the \
             rows; a head that starts away from its target goes past its start. {NOT_LIMITED}",
            self.plan.axes().0,
            self.tick(arrival),
            self.plan.cells().len()
        );
        let row = |entry: &Entry| -> Vec<Cell> {
            let position = |cell: i64| Cell::Number(rounded(entry.measure.position(in_units(cell))));
            let velocity = |cell: i64| Cell::Number(rounded(entry.measure.velocity(in_units(cell))));
            let (first, last) = (entry.rows[0], entry.rows[entry.rows.len() - 1]);
            let range = self.plan.position_range(entry.number).unwrap_or(first.position..=last.position);
            let [positions, velocities, _] = entry.measure.names();
            vec![
                Cell::Words(entry.title.clone()),
                position(first.position),
                position(last.position),
                position(*range.start()),
                position(*range.end()),
                Cell::Words(positions),
                velocity(first.velocity),
                velocity(last.velocity),
                Cell::Words(velocities),
            ]
        };
        let rows: Vec<Vec<Cell>> = self.axes.iter().map(row).collect();
        let headings =
            ["axis", "start", "arrival", "least", "greatest", "in", "start velocity", "arrival velocity", "in"];
        html::paragraph(&text) + &html::table(&headings, &rows)
    }

    /// What the pictures show.
    fn plan_told(&self) -> String {
        let compared = match self.axes.iter().any(|entry| entry.unblended.is_some()) {
            true => " The dashed line is the same job planned with half period 0 on every axis and no second one.",
            false => "",
        };
        let sway = match self.axes.iter().any(|entry| !entry.swings.is_empty()) {
            true => format!(
                " Sway is in proportion to the real pole's, at each of its rates; it is not the tip in degrees. After \
                 arrival there should be next to none.{compared}"
            ),
            false => " No axis has a half period, so no sway is drawn.".into(),
        };
        format!(
            "Position, velocity and acceleration of each axis, with their limits and beside those of the target.{sway}"
        )
    }

    /// For each axis its pictures, and what is left over the errors of half period and damping.
    fn axis_blocks(&self, title: &str, poles: &[(&Entry, Vec<WrongPole>)]) -> Result<String, Refusal> {
        let entries: Vec<(picture::Sample, String)> =
            picture::key(self.sheet).into_iter().map(|(name, sample)| (sample, name.into())).collect();
        let mut text = html::paragraph(&self.plan_told()) + &html::key(&entries);
        let swings = poles.iter().map(|(_, poles)| poles.len()).sum();
        if let Some(pole) = poles.iter().flat_map(|(_, poles)| poles).next() {
            let name = pole.tables_name();
            text += &(html::paragraph(&wrong_axis::told(name)) + &wrong_axis::key(name));
        }
        for (pictures, (entry, poles)) in picture::pictures(title, self.sheet)?.iter().zip(poles) {
            let charts = poles.iter().enumerate().flat_map(|(index, pole)| wrong_axis::charts(entry, pole, index));
            let drawn = pictures.panels.concat() + &charts.collect::<String>();
            let body = html::heading(&pictures.title, &pictures.pole)
                + &html::block("pictures", &drawn)
                + &wrong_axis::numbers(entry, poles, swings);
            text += &html::block("axis", &body);
        }
        Ok(text)
    }

    /// What the blend costs in ticks.
    fn cost(&self) -> String {
        let of = |tick: Option<u32>| tick.map_or(format!("none up to {LATEST_ARRIVAL}"), |tick| tick.to_string());
        if !self.blends() {
            return html::paragraph("No axis has a half period: there is no blend, and it costs nothing.");
        }
        let cost = |blended, unblended| cost_of(blended, unblended).map_or("–".into(), |cost| cost.to_string());
        let mut rows: Vec<Vec<Cell>> = Vec::new();
        let mut line = |name: String, half_periods: String, blended: Option<u32>, unblended: Option<u32>| {
            let cells = [half_periods, of(blended), of(unblended), cost(blended, unblended)];
            rows.push(std::iter::once(Cell::Words(name)).chain(cells.map(Cell::Number)).collect());
        };
        for (entry, alone) in self.axes.iter().zip(&self.arrivals.axes) {
            line(format!("{} alone", entry.title), entry.half_periods(), alone.alone, alone.alone_unblended);
        }
        if self.axes.len() > 1 {
            line("all together".into(), String::new(), self.arrivals.least, self.arrivals.least_unblended);
        }
        let text = "Least arrivals, whatever the sheet asks for and whatever its windows, as entered and without a \
            half period on any axis. An axis that starts and lands at rest arrives by its half periods later.";
        let headings = ["", "half periods", "with the blend", "without", "costs, ticks"];
        html::paragraph(text) + &html::table(&headings, &rows)
    }

    /// What sets the arrival, and why it is not one tick earlier.
    fn arrivals(&self) -> String {
        let rows: Vec<Vec<Cell>> = self
            .axes
            .iter()
            .zip(&self.arrivals.axes)
            .map(|(entry, alone)| {
                let least = alone.alone.map_or("none".into(), |tick| tick.to_string());
                vec![
                    Cell::Words(entry.title.clone()),
                    Cell::Number(least),
                    Cell::Words(earlier_told(entry, alone, self.plan.arrival())),
                ]
            })
            .collect();
        let before = match self.plan.arrival() {
            1 => "one tick earlier".to_string(),
            arrival => format!("at tick {}", arrival - 1),
        };
        let headings = ["axis", "least arrival alone", &before];
        html::paragraph(&self.setter_told()) + &html::table(&headings, &rows)
    }

    /// How near each axis is to its limits.
    fn limits(&self) -> String {
        let rows: Vec<Vec<Cell>> = self
            .axes
            .iter()
            .flat_map(|entry| {
                let [_, speed, acceleration] = entry.measure.sizes();
                let [_, speeds, accelerations] = entry.measure.names();
                let [velocity, change] = rows::nearest(entry.axis, &entry.rows);
                [
                    limit_row(format!("{}, speed", entry.title), velocity, speed, &speeds),
                    limit_row(format!("{}, acceleration", entry.title), change, acceleration, &accelerations),
                ]
            })
            .collect();
        let text = "The greatest sizes among the table's cells. The planned motion keeps its limits before the blend, \
            and so does every cell after it; the blend adds two parts, half a period apart, so that accelerations \
            often stay well below their limit.";
        let headings = ["", "of the limit", "greatest", "limit", "in", "at tick", "rows at the limit"];
        html::paragraph(text) + &html::table(&headings, &rows)
    }

    /// The worst carry misses of the table.
    fn misses(&self) -> String {
        let rows: Vec<Vec<Cell>> = self
            .axes
            .iter()
            .map(|entry| {
                let [position, velocity] = rows::worst_misses(&entry.rows);
                let cells = [halves(position.halves), at_tick(position), halves(velocity.halves), at_tick(velocity)];
                std::iter::once(Cell::Words(entry.title.clone())).chain(cells.map(Cell::Number)).collect()
            })
            .collect();
        let text = format!("{CARRIED} Of this table the worst misses are:");
        let headings = ["axis", "position, fine steps", "from row", "velocity, fine steps", "from row"];
        html::paragraph(&text) + &html::table(&headings, &rows)
    }
}
