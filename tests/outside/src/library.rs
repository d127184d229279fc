//! The calls of the static library, as include/polgamir.h declares them.

use polgamir_sys::*;

use crate::reference::{
    Answer, Axis, Damping, Job, Order, Raise, Raised, Report, Search, Searched, Stop, Target, Tour, Toured, Window,
    Windows,
};

/// Damping and second half period in C's layout, with `fill` where nothing is looked at, and 0 in
/// the other fields. Any number but 0 says that there is a second half period.
fn blend(axis: &Axis, fill: u64) -> polgamir_limits {
    let unread = f32::from_bits(fill as u32);
    let mut fields = polgamir_limits {
        second_weight: fill as u32,
        swing_ratio: unread,
        first_peak: unread,
        second_peak: unread,
        second_half_period: fill as u32,
        ..polgamir_limits::default()
    };
    match axis.damping {
        Damping::Weight(weight) => fields.second_weight = weight,
        Damping::Ratio(ratio) => (fields.damping_kind, fields.swing_ratio) = (1, f32::from_bits(ratio.0)),
        Damping::Peaks(first, second) => {
            (fields.damping_kind, fields.first_peak) = (2, f32::from_bits(first.0));
            fields.second_peak = f32::from_bits(second.0);
        }
    }
    if let Some(second) = axis.second {
        (fields.second_sway_given, fields.second_half_period) = ((fill as u32).max(1), second);
    }
    fields
}

/// Windows in C's layout, with `fill` where there are none.
fn laid_out_windows(windows: Option<Windows>, fill: u64) -> polgamir_windows {
    let unread = polgamir_window { opening: fill as u32, closing: (fill >> 32) as u32 };
    let Some(Windows { dwell, count, list }) = windows else {
        return polgamir_windows { given: 0, dwell: fill as u32, count: fill, list: [unread; 32] };
    };
    let mut all = polgamir_windows { given: 1, dwell, count: u64::from(count), list: [unread; 32] };
    for (window, &Window { opening, closing }) in all.list.iter_mut().zip(&list).take(count as usize) {
        *window = polgamir_window { opening, closing };
    }
    all
}

/// An axis in C's layout. A value that it does not have is `fill`; so is the kind of a
/// moving target, unless that is 0.
fn laid_out_axis(axis: &Axis, fill: u64) -> polgamir_axis {
    let (unread, moving) = (fill as i64, (fill as u32).max(1));
    let (target_position, target_velocity, target_acceleration, target_tick, target_kind) = match axis.target {
        Target::Fixed { position, velocity } => (position, velocity, unread, unread, 0),
        Target::Moving { position, velocity, acceleration, tick } => (position, velocity, acceleration, tick, moving),
    };
    let blend = blend(axis, fill);
    polgamir_axis {
        start_position: axis.start_position,
        start_velocity: axis.start_velocity,
        target_position,
        target_velocity,
        target_acceleration,
        target_tick,
        target_kind,
        speed_limit: axis.speed_limit,
        acceleration_limit: axis.acceleration_limit,
        half_period: axis.half_period,
        damping_kind: blend.damping_kind,
        second_weight: blend.second_weight,
        swing_ratio: blend.swing_ratio,
        first_peak: blend.first_peak,
        second_peak: blend.second_peak,
        second_sway_given: blend.second_sway_given,
        second_half_period: blend.second_half_period,
    }
}

/// A job in C's layout, with `fill` where nothing is looked at.
pub fn laid_out(job: &Job, fill: u64) -> polgamir_job {
    polgamir_job {
        mask: job.mask,
        asked: job.asked,
        axes: job.axes.map(|axis| laid_out_axis(&axis, fill)),
        windows: laid_out_windows(job.windows, fill),
    }
}

fn answer(of: polgamir_answer) -> Answer {
    Answer { number: of.number, place: of.place, mask: of.mask, arrival: of.arrival }
}

/// The library's version.
pub fn version() -> u32 {
    unsafe { polgamir_version() }
}

/// Plans from job words.
pub fn plan_words(words: &[u32], table: &mut [i64]) -> Answer {
    // Both slices stay lent during the call.
    answer(unsafe { polgamir_plan_words(words.as_ptr(), words.len(), table.as_mut_ptr(), table.len()) })
}

/// Plans from typed values in C's layout.
pub fn plan_c_job(job: polgamir_job, table: &mut [i64]) -> Answer {
    answer(unsafe { polgamir_plan_job(job, table.as_mut_ptr(), table.len()) })
}

/// Plans from typed values, with `fill` where nothing is looked at.
pub fn plan_filled(job: &Job, fill: u64, table: &mut [i64]) -> Answer {
    plan_c_job(laid_out(job, fill), table)
}

/// Plans from typed values.
pub fn plan_typed(job: &Job, table: &mut [i64]) -> Answer {
    plan_filled(job, 0, table)
}

fn parted(of: polgamir_part_answer) -> (Answer, u32) {
    (Answer { number: of.number, place: of.place, mask: of.mask, arrival: of.arrival }, of.rows)
}

/// Rows from a first one on, from job words; also how many were written.
pub fn part_of_words(words: &[u32], first: u32, table: &mut [i64]) -> (Answer, u32) {
    let part = unsafe { polgamir_plan_words_part(words.as_ptr(), words.len(), first, table.as_mut_ptr(), table.len()) };
    parted(part)
}

/// Rows from a first one on, from typed values, with `fill` where nothing is looked at.
pub fn part(job: &Job, fill: u64, first: u32, table: &mut [i64]) -> (Answer, u32) {
    parted(unsafe { polgamir_plan_job_part(laid_out(job, fill), first, table.as_mut_ptr(), table.len()) })
}

/// Plans a tour.
pub fn plan_tour(tour: &Tour, stops: &[Stop], list: &mut [u32]) -> Toured {
    let settings = polgamir_tour {
        mask: tour.mask,
        start: tour.axes.map(|axis| axis.start_position),
        limits: tour.axes.map(|axis| polgamir_limits {
            speed_limit: axis.speed_limit,
            acceleration_limit: axis.acceleration_limit,
            half_period: axis.half_period,
            ..blend(&axis, 0)
        }),
    };
    let raw: Vec<polgamir_stop> =
        stops.iter().map(|stop| polgamir_stop { positions: stop.positions, dwell: stop.dwell }).collect();
    let polgamir_tour_answer { number, mask, place, arrival, total } =
        unsafe { polgamir_plan_tour(settings, raw.as_ptr(), raw.len(), list.as_mut_ptr(), list.len()) };
    match number {
        0 => Ok(total),
        _ => Err(Answer { number, place, mask, arrival }),
    }
}

/// What a call for raises returned: the raises of the axes that its answer
/// names. Every other place is empty.
fn raised(of: polgamir_raises) -> Raised {
    let answer = answer(of.answer);
    let named = if answer.number == 8 { answer.mask } else { 0 };
    let mut list = Vec::new();
    for (i, axis) in of.axes.iter().enumerate() {
        let places = [axis.first, axis.second];
        let raises: Vec<Raise> = places.iter().map_while(raise).collect();
        assert!(places[raises.len()..].iter().all(|raise| (raise.limit, raise.by) == (0, 0)), "axis {i}");
        if named >> i & 1 == 1 {
            list.push((i, raises));
        } else {
            assert!(raises.is_empty(), "axis {i} is not named");
        }
    }
    (answer, list)
}

fn raise(of: &polgamir_raise) -> Option<Raise> {
    match of.limit {
        0 => None,
        1 => Some(Raise::Acceleration(of.by)),
        2 => Some(Raise::Speed(of.by)),
        other => panic!("{other} is no limit"),
    }
}

/// The raises for job words.
pub fn raises_of_words(words: &[u32]) -> Raised {
    raised(unsafe { polgamir_raises_words(words.as_ptr(), words.len()) })
}

/// The raises for typed values, with `fill` where nothing is looked at.
pub fn raises(job: &Job, fill: u64) -> Raised {
    raised(raises_c_job(laid_out(job, fill)))
}

/// The same for a job that is already laid out, as the call returns it.
pub fn raises_c_job(job: polgamir_job) -> polgamir_raises {
    unsafe { polgamir_raises_job(job) }
}

/// Converts old job words to lent words: how many were written, or a refusal.
pub fn convert(words: &[u32], lent: &mut [u32]) -> Result<usize, Answer> {
    let answer = answer(unsafe { polgamir_convert(words.as_ptr(), words.len(), lent.as_mut_ptr(), lent.len()) });
    match answer.number {
        0 => Ok(answer.place as usize),
        _ => Err(answer),
    }
}

fn searched(of: polgamir_search_answer) -> Search {
    let polgamir_search_answer { number, mask, place, arrival, report, next, tried } = of;
    if number != 0 {
        return Err(Answer { number, place, mask, arrival });
    }
    let report = match report {
        0 => Report::None,
        1 => Report::Found(arrival),
        2 => Report::Spent(next),
        other => panic!("{other} is no report"),
    };
    Ok(Searched { report, tried })
}

/// Searches for job words.
pub fn search_words(words: &[u32], first: u32, budget: u32) -> Search {
    searched(unsafe { polgamir_search_words(words.as_ptr(), words.len(), first, budget) })
}

/// Searches for typed values, with `fill` where nothing is looked at.
pub fn search(job: &Job, fill: u64, first: u32, budget: u32) -> Search {
    searched(unsafe { polgamir_search_job(laid_out(job, fill), first, budget) })
}

/// Plans from job words, with rows in either order.
pub fn plan_words_in(order: Order, words: &[u32], table: &mut [i64]) -> Answer {
    match order {
        Order::Forwards => plan_words(words, table),
        Order::Backwards => answer(unsafe {
            polgamir_plan_words_backwards(words.as_ptr(), words.len(), table.as_mut_ptr(), table.len())
        }),
    }
}

/// Plans from typed values, with rows in either order and with `fill` where nothing is looked at.
pub fn plan_filled_in(order: Order, job: &Job, fill: u64, table: &mut [i64]) -> Answer {
    match order {
        Order::Forwards => plan_filled(job, fill, table),
        Order::Backwards => {
            answer(unsafe { polgamir_plan_job_backwards(laid_out(job, fill), table.as_mut_ptr(), table.len()) })
        }
    }
}
