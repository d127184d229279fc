//! Reading a set-up sheet: first what a tick and a unit stand for and where each
//! axis begins, then everything else.

use std::num::NonZeroU32;
use std::str::FromStr;

use super::amount::Amount;
use super::draft::Draft;
use super::lines::Line;
use super::notes::{EntryLine, Notes};
use super::quantity::{Place, Quantity, Rule, Share};
use super::stops::StopDraft;
use super::text::{after, fault, quoted};
use super::worked::Worked;
use super::{Setup, Sheet, SheetError, SheetErrors, TourSheet};
use crate::job::{Arrival, Job};
use crate::sheet::fraction::Rounding;
use crate::tour::Tour;
use crate::windows::{Window, Windows};
use crate::words::WordKind;
use crate::AXES;

impl FromStr for Setup {
    type Err = SheetErrors;

    fn from_str(text: &str) -> Result<Setup, SheetErrors> {
        let text = text.strip_prefix(BYTE_ORDER_MARK).unwrap_or(text);
        let lines: Vec<Line> =
            text.lines().enumerate().filter_map(|(index, line)| Line::read(index + 1, line)).collect();
        let mut reading = Reading { last_line: text.lines().count().max(1), ..Reading::default() };
        reading.errors.extend(lines.iter().filter_map(|line| line.misspelt.clone()));
        for line in &lines {
            let told = reading.begin(line.number, &line.words());
            reading.say(line, told);
        }
        reading.current = None;
        for line in &lines {
            let told = reading.take(line.number, &line.words());
            reading.say(line, told);
        }
        reading.finish()
    }
}

impl FromStr for Sheet {
    type Err = SheetErrors;

    fn from_str(text: &str) -> Result<Sheet, SheetErrors> {
        match text.parse()? {
            Setup::Job(sheet) => Ok(sheet),
            Setup::Tour(sheet) => Ok(fault(sheet.stop_lines[0], "the sheet of a job", "`stop`, of a tour")?),
        }
    }
}

impl FromStr for TourSheet {
    type Err = SheetErrors;

    fn from_str(text: &str) -> Result<TourSheet, SheetErrors> {
        match text.parse()? {
            Setup::Tour(sheet) => Ok(sheet),
            Setup::Job(sheet) => {
                let line = sheet.line_of(None, WordKind::Arrival).unwrap_or(1);
                Ok(fault(line, "the sheet of a tour, with a `stop`", "`arrival`, of a job")?)
            }
        }
    }
}

/// What some editors put before a text.
const BYTE_ORDER_MARK: char = '\u{FEFF}';

/// What has been read of a sheet.
#[derive(Default)]
pub struct Reading {
    /// The last line of the sheet, from 1.
    last_line: usize,
    pub notes: Notes,
    /// What turns entries into ticks and units.
    pub worked: Worked,
    /// What is wrong so far.
    errors: Vec<SheetError>,
    arrival: Option<Arrival>,
    /// The axes, in the order of the sheet.
    drafts: Vec<Draft>,
    /// How many of the axes have begun before the line that is read.
    current: Option<usize>,
    pub stops: Vec<StopDraft>,
    pub windows: Vec<Window>,
    pub dwell: Option<u32>,
}

impl Reading {
    /// Keeps what is wrong with a line, but of a misspelt one nothing further.
    fn say(&mut self, line: &Line, told: Result<(), SheetError>) {
        if line.misspelt.is_none() {
            self.errors.extend(told.err());
        }
    }

    /// Takes a line that says what a tick or a unit stands for, or that begins an axis.
    fn begin(&mut self, line: usize, words: &[&str]) -> Result<(), SheetError> {
        if let Some(rest) = after(words, "axis") {
            return self.begin_axis(line, rest);
        }
        if let Some(rest) = after(words, "tick") {
            return self.worked.scales.take_tick(line, rest);
        }
        match after(words, "unit") {
            Some(rest) => self.worked.scales.take_unit(line, self.drafts.last().map(|draft| draft.number), rest),
            None => Ok(()),
        }
    }

    /// Begins an axis. One whose line is wrong is read all the same, and then left.
    fn begin_axis(&mut self, line: usize, rest: &[&str]) -> Result<(), SheetError> {
        let number = rest.first().and_then(|word| word.parse::<usize>().ok()).filter(|&number| number < AXES);
        let first = self.drafts.iter().find(|draft| Some(draft.number) == number).map(|draft| draft.line);
        let (Some(number), None) = (number, first) else {
            self.drafts.push(Draft::new(AXES, String::new(), line));
            return match (number, first) {
                (Some(number), Some(first)) => {
                    fault(line, format!("axis {number} once"), format!("it again after line {first}"))
                }
                _ => fault(line, "an axis number from 0 to 5 after `axis`", quoted(&rest[..rest.len().min(1)])),
            };
        };
        let name = rest[1..].join(" ");
        self.notes.names[number] = (!name.is_empty()).then_some(name);
        self.drafts.push(Draft::new(number, self.notes.axis_title(number), line));
        Ok(())
    }

    /// Takes any other line.
    fn take(&mut self, line: usize, words: &[&str]) -> Result<(), SheetError> {
        let begun = |name: &str| after(words, name).is_some();
        if begun("axis") {
            self.current = Some(self.current.map_or(0, |index| index + 1));
        }
        if begun("axis") || begun("tick") || begun("unit") {
            return Ok(());
        }
        if let Some(value) = after(words, "arrival") {
            return self.take_arrival(line, value);
        }
        if let Some(rest) = after(words, "stop") {
            return self.take_stop(line, rest);
        }
        if let Some(rest) = after(words, "window") {
            return self.take_window(line, rest);
        }
        if let Some(rest) = after(words, "dwell") {
            return self.take_dwell(line, rest);
        }
        match self.current.and_then(|index| self.drafts.get_mut(index)) {
            Some(draft) => draft.take(line, words, &mut self.worked),
            None => fault(line, "`arrival`, `window`, `dwell`, `tick`, `unit`, `axis` or `stop`", quoted(words)),
        }
    }

    /// Takes the arrival.
    fn take_arrival(&mut self, line: usize, value: &[&str]) -> Result<(), SheetError> {
        if let Some(first) = self.notes.line_of(None, WordKind::Arrival) {
            return fault(line, "one `arrival`", format!("another beside that of line {first}"));
        }
        self.notes.lines.push(EntryLine { axis: None, entry: WordKind::Arrival, line });
        self.arrival = Some(Arrival::Earliest);
        if let [word] = value {
            if word.eq_ignore_ascii_case("earliest") {
                return Ok(());
            }
        }
        let expected = "`earliest`, a tick from 1 to 4096, or seconds as in `2.2 s`, after `arrival`";
        let Some(amount) = Amount::only(value) else {
            return fault(line, expected, quoted(value));
        };
        let place = Place { entry: Some(WordKind::Arrival), ..Place::whole_sheet(line, "arrival", value, expected) };
        let rule = Rule::kept(Quantity::Time, Rounding::Nearest);
        let Some(tick) = self.worked.whole(&place, &amount, &Share::Whole, rule)? else {
            return Ok(());
        };
        let Some(tick) = u32::try_from(tick).ok().and_then(NonZeroU32::new) else {
            return fault(line, expected, quoted(value));
        };
        self.arrival = Some(Arrival::At(tick));
        Ok(())
    }

    /// The windows, where the sheet has a dwell; without one it has no windows.
    fn windows(&mut self) -> Option<Windows> {
        if let (None, Some(&line)) = (self.notes.dwell, self.notes.windows.first()) {
            self.errors.extend(fault::<()>(line, "`dwell` beside `window`", "none on the sheet").err());
        }
        Some(Windows::new(self.dwell?, &self.windows))
    }

    /// Ends the sheet.
    fn finish(mut self) -> Result<Setup, SheetErrors> {
        if self.drafts.is_empty() {
            self.ends_without("at least one of `axis 0` to `axis 5`");
        }
        self.drafts.retain(|draft| draft.number < AXES);
        self.drafts.sort_by_key(|draft| draft.number);
        for draft in &self.drafts {
            self.notes.lines.extend(draft.lines());
        }
        match self.stops.first().map(|stop| stop.line) {
            None => self.job().map(Setup::Job),
            Some(line) => self.tour(line).map(Setup::Tour),
        }
    }

    /// Tells that the sheet ends too soon.
    fn ends_without(&mut self, lacking: &str) {
        self.errors.extend(fault::<()>(self.last_line, lacking, "the end of the sheet").err());
    }

    /// What the sheet says beside its numbers, where nothing is wrong with it.
    fn notes(mut self) -> Result<Notes, SheetErrors> {
        if !self.errors.is_empty() {
            return Err(SheetErrors::new(self.errors));
        }
        self.worked.rounded.sort_by_key(|rounded| rounded.line);
        let Worked { scales, rounded, entered, .. } = self.worked;
        Ok(Notes { scales, rounded, entered, ..self.notes })
    }

    /// The sheet of a job.
    fn job(mut self) -> Result<Sheet, SheetErrors> {
        let mut job = Job::earliest();
        for draft in &self.drafts {
            let axis = draft.axis(&mut self.errors);
            self.worked.weigh(draft.number, &axis);
            job.axes[draft.number] = Some(axis);
        }
        match self.arrival {
            Some(arrival) => job.arrival = arrival,
            None => self.ends_without("`arrival earliest`, `arrival` with a tick, or the `stop` of a tour"),
        }
        job.windows = self.windows();
        Ok(Sheet { job, notes: self.notes()? })
    }

    /// The lines of a tour's sheet that belong to a job's, with their names.
    fn lines_of_a_job(&self) -> Vec<(&'static str, usize)> {
        let arrival = self.notes.line_of(None, WordKind::Arrival).map(|line| ("arrival", line));
        let windows = self.notes.windows.iter().map(|&line| ("window", line));
        arrival.into_iter().chain(windows).chain(self.notes.dwell.map(|line| ("dwell", line))).collect()
    }

    /// The sheet of a tour whose first stop stands on a line.
    fn tour(mut self, first_stop: usize) -> Result<TourSheet, SheetErrors> {
        for (name, line) in self.lines_of_a_job() {
            let found = format!("`{name}` beside `stop` of line {first_stop}");
            self.errors.extend(fault::<()>(line, format!("no `{name}`"), found).err());
        }
        let mut tour = Tour::new();
        for draft in &self.drafts {
            let axis = draft.tour_axis(first_stop, &mut self.errors);
            self.worked.weigh(draft.number, &axis.leg(axis.start, axis.start));
            tour.axes[draft.number] = Some(axis);
        }
        let (mut stops, stop_lines) = (Vec::new(), self.stops.iter().map(|stop| stop.line).collect());
        for (index, draft) in std::mem::take(&mut self.stops).into_iter().enumerate() {
            match draft.stop(index, &tour, &self.notes, &mut self.worked) {
                Ok(stop) => stops.push(stop),
                Err(error) => self.errors.push(error),
            }
        }
        Ok(TourSheet { tour, stops, notes: self.notes()?, stop_lines })
    }
}
