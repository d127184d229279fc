//! The calls of the proved library: the only place with `unsafe`. Its structs are those of
//! `polgamir-sys`.

use std::mem::{offset_of, size_of};

use polgamir_sys::*;

use crate::damping::Damping;
use crate::job::{Axis, Job, RestPoint, State, Target};
use crate::raises::{AxisRaises, Limit, Raise, Raises};
use crate::refusal::Answer;
use crate::rows::Order;
use crate::search::{Report, Searched};
use crate::tour::{Stop, Tour, TourAxis};
use crate::windows::{Window, Windows};
use crate::{AXES, FINE_STEPS, LATEST_ARRIVAL};

/// The numbers that this crate says by itself are the header's.
const _: () = assert!(
    AXES == POLGAMIR_AXES
        && LATEST_ARRIVAL == POLGAMIR_LATEST_ARRIVAL
        && FINE_STEPS == POLGAMIR_FINE_STEPS
        && crate::MOST_CELLS == POLGAMIR_MOST_CELLS
        && crate::MOST_WINDOWS == POLGAMIR_WINDOWS
        && crate::MOST_STOPS == POLGAMIR_MOST_STOPS
        && crate::LONGEST_DWELL == POLGAMIR_LONGEST_DWELL
);

/// A stop is laid out as the header's, so that a row of them is lent as it stands.
const _: () = assert!(
    size_of::<Stop>() == size_of::<polgamir_stop>()
        && offset_of!(Stop, positions) == offset_of!(polgamir_stop, positions)
        && offset_of!(Stop, dwell) == offset_of!(polgamir_stop, dwell)
);

impl From<polgamir_answer> for Answer {
    fn from(answer: polgamir_answer) -> Answer {
        let polgamir_answer { number, mask, place, arrival } = answer;
        Answer { number, place, mask, arrival }
    }
}

/// A raise, or none.
fn raise_of(raise: polgamir_raise) -> Option<Raise> {
    let limit = match raise.limit {
        POLGAMIR_ACCELERATION_LIMIT => Limit::Acceleration,
        POLGAMIR_SPEED_LIMIT => Limit::Speed,
        _ => return None,
    };
    Some(Raise { limit, by: raise.by })
}

impl From<polgamir_raises> for Raises {
    fn from(raises: polgamir_raises) -> Raises {
        let axes = raises.axes.map(|axis| AxisRaises { first: raise_of(axis.first), second: raise_of(axis.second) });
        Raises::new(raises.answer.into(), axes)
    }
}

/// What a search gave, or the answer with the refusal.
fn searched(answer: polgamir_search_answer) -> Result<Searched, Answer> {
    let polgamir_search_answer { number, mask, place, arrival, report, next, tried } = answer;
    if number != 0 {
        return Err(Answer { number, place, mask, arrival });
    }
    let report = match report {
        POLGAMIR_FOUND => Report::Found { arrival },
        POLGAMIR_SPENT => Report::Spent { next },
        _ => Report::None,
    };
    Ok(Searched { report, tried })
}

/// The fields that say the damping and the second sway, with 0 in all others.
fn blend_of(damping: Damping, second_half_period: Option<u32>) -> polgamir_limits {
    let mut fields = polgamir_limits::default();
    match damping {
        Damping::Weight(weight) => (fields.damping_kind, fields.second_weight) = (POLGAMIR_WEIGHT, weight),
        Damping::Ratio(ratio) => (fields.damping_kind, fields.swing_ratio) = (POLGAMIR_RATIO, ratio),
        Damping::Peaks { first, second } => {
            (fields.damping_kind, fields.first_peak, fields.second_peak) = (POLGAMIR_PEAKS, first, second);
        }
    }
    if let Some(half_period) = second_half_period {
        (fields.second_sway_given, fields.second_half_period) = (1, half_period);
    }
    fields
}

impl From<&Axis> for polgamir_axis {
    fn from(axis: &Axis) -> polgamir_axis {
        let (target_kind, target) = match axis.target {
            Target::Fixed(RestPoint { position, velocity }) => {
                (POLGAMIR_FIXED, State { position, velocity, ..State::default() })
            }
            Target::Moving(state) => (POLGAMIR_MOVING, state),
        };
        let blend = blend_of(axis.damping, axis.second_half_period);
        polgamir_axis {
            start_position: axis.start.position,
            start_velocity: axis.start.velocity,
            target_position: target.position,
            target_velocity: target.velocity,
            target_acceleration: target.acceleration,
            target_tick: target.tick,
            target_kind,
            speed_limit: axis.speed_limit,
            acceleration_limit: axis.acceleration_limit,
            half_period: axis.half_period,
            damping_kind: blend.damping_kind,
            second_weight: blend.second_weight,
            swing_ratio: blend.swing_ratio,
            first_peak: blend.first_peak,
            second_peak: blend.second_peak,
            second_sway_given: blend.second_sway_given,
            second_half_period: blend.second_half_period,
        }
    }
}

impl From<&Windows> for polgamir_windows {
    fn from(windows: &Windows) -> polgamir_windows {
        let list = windows.room().map(|Window { opening, closing }| polgamir_window { opening, closing });
        polgamir_windows { given: 1, dwell: windows.dwell(), count: windows.count() as u64, list }
    }
}

impl From<&Job> for polgamir_job {
    fn from(job: &Job) -> polgamir_job {
        let mut axes = [polgamir_axis::default(); AXES];
        for (number, axis) in job.entered() {
            axes[number] = axis.into();
        }
        let windows = job.windows.as_ref().map(polgamir_windows::from).unwrap_or_default();
        polgamir_job { mask: job.mask(), asked: job.arrival.number(), axes, windows }
    }
}

impl From<&TourAxis> for polgamir_limits {
    fn from(axis: &TourAxis) -> polgamir_limits {
        let &TourAxis { speed_limit, acceleration_limit, half_period, damping, second_half_period, .. } = axis;
        let blend = blend_of(damping, second_half_period);
        polgamir_limits { speed_limit, acceleration_limit, half_period, ..blend }
    }
}

impl From<&Tour> for polgamir_tour {
    fn from(tour: &Tour) -> polgamir_tour {
        let mut settings = polgamir_tour { mask: tour.mask(), ..polgamir_tour::default() };
        for (number, axis) in tour.entered() {
            settings.start[number] = axis.start;
            settings.limits[number] = axis.into();
        }
        settings
    }
}

/// Plans a job from its words, with the rows in an order.
pub(crate) fn plan_words(words: &[u32], order: Order, table: &mut [i64]) -> Answer {
    let call = match order {
        Order::Forwards => polgamir_plan_words,
        Order::Backwards => polgamir_plan_words_backwards,
    };
    // SAFETY: both pointers come from slices with these lengths, so they are aligned and
    // valid for the whole call, to read for `words` and to write for `table`; the borrows
    // keep them from overlapping. The library keeps neither pointer after it returns, has
    // no state, and does not unwind.
    let answer = unsafe { call(words.as_ptr(), words.len(), table.as_mut_ptr(), table.len()) };
    answer.into()
}

/// Plans a job from typed values, with the rows in an order.
pub(crate) fn plan_job(job: &Job, order: Order, table: &mut [i64]) -> Answer {
    let call = match order {
        Order::Forwards => polgamir_plan_job,
        Order::Backwards => polgamir_plan_job_backwards,
    };
    // SAFETY: the job passes by value in the header's layout, and the table's pointer and length
    // are those of one slice, valid to write for the whole call. The library keeps no pointer after
    // it returns, has no state, and does not unwind.
    let answer = unsafe { call(job.into(), table.as_mut_ptr(), table.len()) };
    answer.into()
}

/// Plans a job from its words, with its rows from a first one on; also how many rows were written.
pub(crate) fn plan_words_part(words: &[u32], first: u32, table: &mut [i64]) -> (Answer, u32) {
    // SAFETY: as in `plan_words`.
    let part = unsafe { polgamir_plan_words_part(words.as_ptr(), words.len(), first, table.as_mut_ptr(), table.len()) };
    parted(part)
}

/// Plans a job from typed values, with its rows from a first one on; also how many rows were
/// written.
pub(crate) fn plan_job_part(job: &Job, first: u32, table: &mut [i64]) -> (Answer, u32) {
    // SAFETY: as in `plan_job`.
    let part = unsafe { polgamir_plan_job_part(job.into(), first, table.as_mut_ptr(), table.len()) };
    parted(part)
}

/// The answer, and the number of rows.
fn parted(part: polgamir_part_answer) -> (Answer, u32) {
    let polgamir_part_answer { number, mask, place, arrival, rows } = part;
    (Answer { number, place, mask, arrival }, rows)
}

/// The raises for the job that words hold.
pub(crate) fn raises_words(words: &[u32]) -> Raises {
    // SAFETY: the pointer and the length are those of one slice, aligned and valid to
    // read for the whole call. The library does not keep the pointer after it returns,
    // has no state, and does not unwind.
    let raises = unsafe { polgamir_raises_words(words.as_ptr(), words.len()) };
    raises.into()
}

/// The raises for a job of typed values.
pub(crate) fn raises_job(job: &Job) -> Raises {
    // SAFETY: the job passes by value in the header's layout. The library has
    // no state, and does not unwind.
    let raises = unsafe { polgamir_raises_job(job.into()) };
    raises.into()
}

/// Converts the words of an old job to lent words.
pub(crate) fn convert(words: &[u32], lent: &mut [u32]) -> Answer {
    // SAFETY: both pointers come from slices with these lengths, so they are aligned and
    // valid for the whole call, to read for `words` and to write for `lent`; the borrows
    // keep them from overlapping. The library keeps neither pointer after it returns, has
    // no state, and does not unwind.
    let answer = unsafe { polgamir_convert(words.as_ptr(), words.len(), lent.as_mut_ptr(), lent.len()) };
    answer.into()
}

/// Plans a tour over its stops, and gives its answer and its total.
pub(crate) fn plan_tour(tour: &Tour, stops: &[Stop], arrivals: &mut [u32]) -> (Answer, u32) {
    // SAFETY: the tour passes by value in the header's layout, which `Stop` has too. Both pointers
    // come from slices with these lengths, so they are aligned and valid for the whole call, to
    // read for `stops` and to write for `arrivals`; the borrows keep them from overlapping. The
    // library keeps neither pointer after it returns, has no state, and does not unwind.
    let polgamir_tour_answer { number, mask, place, arrival, total } = unsafe {
        let stop_list = stops.as_ptr().cast();
        polgamir_plan_tour(tour.into(), stop_list, stops.len(), arrivals.as_mut_ptr(), arrivals.len())
    };
    (Answer { number, place, mask, arrival }, total)
}

/// Searches for the arrival of a job from its words, or gives the answer with the refusal.
pub(crate) fn search_words(words: &[u32], first: u32, budget: u32) -> Result<Searched, Answer> {
    // SAFETY: pointer and length are those of one slice, valid to read for the whole call. The
    // library keeps no pointer after it returns, has no state, and does not unwind.
    let answer = unsafe { polgamir_search_words(words.as_ptr(), words.len(), first, budget) };
    searched(answer)
}

/// Searches for the arrival of a job from typed values, or gives the answer with the refusal.
pub(crate) fn search_job(job: &Job, first: u32, budget: u32) -> Result<Searched, Answer> {
    // SAFETY: the job passes by value in the header's layout. The library takes no pointer, has
    // no state, and does not unwind.
    let answer = unsafe { polgamir_search_job(job.into(), first, budget) };
    searched(answer)
}
