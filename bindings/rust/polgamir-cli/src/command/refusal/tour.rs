//! The refusal of a tour in words: a leg's is that of its job, whose positions are those of the
//! stops.

use polgamir::sheet::{SheetLine, TourSheet};
use polgamir::{TourRefusal, LONGEST_DWELL, MOST_STOPS};

use super::{told, Told};
use crate::measure::in_seconds;

/// The refusal of a tour in words.
pub fn told_of_tour(sheet: &TourSheet, refusal: &TourRefusal) -> Told {
    let at = |stop: usize| sheet.line_of_stop(stop).map(|line| format!("line {line}: ")).unwrap_or_default();
    let in_line = |stop: usize| sheet.line_of_stop(stop).map(|line| format!(" (line {line})")).unwrap_or_default();
    let of_stops = |sentence: String, remedy: String, details: Vec<String>| Told {
        sentence,
        remedy,
        details,
        look_at: SheetLine::EnterStartAndTarget.text(),
        number: refusal.number(),
        printed_line: refusal.printed_line(),
    };
    match *refusal {
        TourRefusal::Leg { stop, refusal: of_leg } => {
            let told = told(&sheet.leg(stop).unwrap_or_default(), &of_leg);
            let cause = told.sentence.strip_prefix("No plan: ").unwrap_or(&told.sentence);
            let sentence = format!("No plan for the leg to stop {stop}{}: {cause}", in_line(stop));
            Told { sentence, printed_line: refusal.printed_line(), ..told }
        }
        TourRefusal::Stops { stop: MOST_STOPS } => of_stops(
            format!("No plan: there are {} stops, and a tour has at most {MOST_STOPS}.", sheet.stops.len()),
            "Enter the later stops as a tour of their own.".into(),
            vec![format!("{}the first stop too many", at(MOST_STOPS))],
        ),
        TourRefusal::Stops { stop } => {
            let dwell = sheet.stops[stop].dwell;
            let seconds = in_seconds(dwell, sheet.tick_seconds());
            of_stops(
                format!("No plan: the dwell of stop {stop} is above {LONGEST_DWELL} ticks."),
                format!("Enter a dwell from 0 to {LONGEST_DWELL} ticks."),
                vec![format!("{}stop {stop}: dwell {dwell}{seconds}", at(stop))],
            )
        }
        other => of_stops(format!("No plan: {other}."), "Nothing was planned.".into(), Vec::new()),
    }
}
