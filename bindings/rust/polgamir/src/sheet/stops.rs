//! Stops, windows and dwells, as they are read.

use super::amount::Amount;
use super::fraction::{Fraction, Rounding};
use super::notes::Notes;
use super::quantity::{Place, Quantity, Rule, Share};
use super::reading::Reading;
use super::text::{fault, quoted};
use super::worked::Worked;
use super::SheetError;
use crate::tour::{Stop, Tour};
use crate::windows::Window;

/// What is expected after `stop`.
const STOP: &str =
    "a position for each axis, `dwell` and a whole number of ticks from 0 to 4096, or seconds as in `1 s`, after \
     `stop`";

/// What is expected after `window`.
const WINDOW: &str =
    "an opening and a closing, both ticks from 0 to 4294967295 or both seconds as in `0.4 s 1.2 s`, after `window`";

/// What is expected after `dwell`.
const DWELL: &str = "a whole number of ticks from 0 to 4096, or seconds as in `0.5 s`, after `dwell`";

/// A stop being read: its positions are told apart when all axes are known.
pub struct StopDraft {
    /// The line, from 1.
    pub line: usize,
    /// The positions, where they could be read.
    positions: Option<Vec<Amount>>,
    /// The dwell, 0 where it could not be read.
    dwell: u32,
}

impl Reading {
    /// Takes a stop: positions, `dwell`, and the stay.
    pub fn take_stop(&mut self, line: usize, rest: &[&str]) -> Result<(), SheetError> {
        let split = rest.iter().position(|word| word.eq_ignore_ascii_case("dwell")).unwrap_or(rest.len());
        let (positions, dwell) = (Amount::all(&rest[..split]), rest.get(split + 1..).and_then(Amount::only));
        let index = self.stops.len();
        let is_read = positions.is_some() && dwell.is_some();
        let positions = positions.filter(|_| is_read);
        self.stops.push(StopDraft { line, positions, dwell: 0 });
        let Some(dwell) = dwell.filter(|_| is_read) else {
            return fault(line, STOP, quoted(rest));
        };
        let entered = [dwell.text.as_str()];
        let place = Place { whose: format!("stop {index}"), ..Place::whole_sheet(line, "dwell", &entered, STOP) };
        let ticks = self.worked.whole(&place, &dwell, &Share::Whole, Rule::unsigned(Quantity::Time, Rounding::Up))?;
        self.stops[index].dwell = in_ticks(ticks);
        Ok(())
    }

    /// Takes a window: its opening and its closing. It shrinks to the whole ticks inside it.
    pub fn take_window(&mut self, line: usize, rest: &[&str]) -> Result<(), SheetError> {
        self.notes.windows.push(line);
        let amounts = Amount::all(rest).and_then(|amounts| <[Amount; 2]>::try_from(amounts).ok());
        let Some([opening, closing]) =
            amounts.filter(|[opening, closing]| opening.is_measured() == closing.is_measured())
        else {
            return fault(line, WINDOW, quoted(rest));
        };
        let mut end = |name: &str, amount: &Amount, rounding| {
            let place = Place::whole_sheet(line, name, &[amount.text.as_str()], WINDOW);
            self.worked.whole(&place, amount, &Share::Whole, Rule::unsigned(Quantity::Time, rounding))
        };
        let opens = end("window opening", &opening, Rounding::Up)?;
        let closes = end("window closing", &closing, Rounding::Down)?;
        let (Some(opens), Some(closes)) = (opens, closes) else {
            return Ok(());
        };
        let is_open = |(opening, closing): (Fraction, Fraction)| opening.minus(&closing).is_negative();
        if opens >= closes && opening.seconds().zip(closing.seconds()).is_some_and(is_open) {
            return fault(line, "a window that holds a whole tick after `window`", quoted(rest));
        }
        let window = Window { opening: in_ticks(Some(opens)), closing: in_ticks(Some(closes)) };
        self.windows.push(window);
        Ok(())
    }

    /// Takes the dwell in the windows.
    pub fn take_dwell(&mut self, line: usize, rest: &[&str]) -> Result<(), SheetError> {
        if let Some(first) = self.notes.dwell {
            return fault(line, "one `dwell`", format!("another beside that of line {first}"));
        }
        self.notes.dwell = Some(line);
        let Some(amount) = Amount::only(rest) else {
            return fault(line, DWELL, quoted(rest));
        };
        let place = Place::whole_sheet(line, "dwell", rest, DWELL);
        let ticks = self.worked.whole(&place, &amount, &Share::Whole, Rule::unsigned(Quantity::Time, Rounding::Up))?;
        self.dwell = Some(in_ticks(ticks));
        Ok(())
    }
}

/// A number of ticks that was read as a u32; any where it could not be told.
fn in_ticks(ticks: Option<i64>) -> u32 {
    ticks.map_or(0, |ticks| ticks as u32)
}

impl StopDraft {
    /// The stop of a tour, whose axes have their positions from the lowest up.
    pub fn stop(self, index: usize, tour: &Tour, notes: &Notes, worked: &mut Worked) -> Result<Stop, SheetError> {
        let mut stop = Stop { dwell: self.dwell, ..Stop::default() };
        let Some(positions) = self.positions else {
            return Ok(stop);
        };
        let (axes, found) = (tour.entered().count(), positions.len());
        if axes != found && axes > 0 {
            return fault(self.line, format!("{axes} positions after `stop`, one for each axis"), found.to_string());
        }
        for ((number, _), position) in tour.entered().zip(&positions) {
            let place = Place {
                line: self.line,
                axis: Some(number),
                entry: None,
                whose: format!("stop {index}, {}", notes.axis_title(number)),
                name: "position",
                entered: position.text.clone(),
                expected: STOP.into(),
            };
            let found = worked.whole(&place, position, &Share::Whole, Rule::signed(Quantity::Position))?;
            stop.positions[number] = found.unwrap_or(0);
        }
        Ok(stop)
    }
}
