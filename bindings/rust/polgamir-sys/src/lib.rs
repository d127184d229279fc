//! The C interface of the proved planner: the structs and calls of `include/polgamir.h`, name by
//! name and field by field.
//!
//! The header says what each call takes, answers and promises. The crate `polgamir` is the safe
//! layer above this one; most programs want that.
//!
//! ```
//! use polgamir_sys::{polgamir_axis, polgamir_job, polgamir_plan_job};
//!
//! let mut job = polgamir_job { mask: 1, ..Default::default() };
//! job.axes[0] = polgamir_axis {
//!     target_position: 4,
//!     speed_limit: 10,
//!     acceleration_limit: 1,
//!     second_weight: 128,
//!     ..Default::default()
//! };
//! let mut table = [0; 3 * 5];
//! // SAFETY: the table has as many cells as are named.
//! let answer = unsafe { polgamir_plan_job(job, table.as_mut_ptr(), table.len()) };
//! assert_eq!((answer.number, answer.arrival), (0, 4));
//! assert_eq!([0, 3, 6, 9, 12].map(|cell| table[cell]), [0, 128, 512, 896, 1024]); // positions
//! ```
//!
//! A number other than 0 is a refusal, and then no cell is written. The list is the header's
//! `enum polgamir_number`; `polgamir::Refusal` has it for Rust.
//!
//! # Which library is linked
//!
//! The first of these that there is; the build says which it took.
//!
//! 1. `libpolgamir.a`, or else `libpolgamir.so`, in the folder that the variable `POLGAMIR_LIB_DIR`
//!    names.
//! 2. What pkg-config finds as `polgamir` of this crate's major and minor version: an installed
//!    library.
//! 3. `target/lib/libpolgamir.a` of the repository that this crate stands in, which `tools/library`
//!    proves and writes.
//!
//! A library of another major or minor version is an error of the build. So is the repository's
//! library where it is older than its sources.

#![no_std]
#![allow(non_camel_case_types)]

/// A job has at most this many axes, numbered from 0.
pub const POLGAMIR_AXES: usize = 6;

/// A job brings at most this many windows.
pub const POLGAMIR_WINDOWS: usize = 32;

/// The latest arrival.
pub const POLGAMIR_LATEST_ARRIVAL: u32 = 4096;

/// The fine steps of a unit.
pub const POLGAMIR_FINE_STEPS: i64 = 256;

/// The cells that the largest table needs.
pub const POLGAMIR_MOST_CELLS: usize = 73_746;

/// A tour has at most this many stops.
pub const POLGAMIR_MOST_STOPS: usize = 64;

/// The longest dwell, in ticks.
pub const POLGAMIR_LONGEST_DWELL: u32 = 4096;

/// The version of the header that this crate follows: 1,000,000 × major + 1,000 × minor + patch.
pub const POLGAMIR_VERSION: u32 = version_number();

/// A target to come to rest at.
pub const POLGAMIR_FIXED: u32 = 0;
/// A target that moves by itself.
pub const POLGAMIR_MOVING: u32 = 1;

/// Damping said as the second weight.
pub const POLGAMIR_WEIGHT: u32 = 0;
/// Damping said as the ratio of two swings.
pub const POLGAMIR_RATIO: u32 = 1;
/// Damping said as two peaks.
pub const POLGAMIR_PEAKS: u32 = 2;

/// No limit is to be raised.
pub const POLGAMIR_NO_LIMIT: u32 = 0;
/// The acceleration limit.
pub const POLGAMIR_ACCELERATION_LIMIT: u32 = 1;
/// The speed limit.
pub const POLGAMIR_SPEED_LIMIT: u32 = 2;

/// A search found nothing, and no candidate is left.
pub const POLGAMIR_NONE: u32 = 0;
/// A search found a tick.
pub const POLGAMIR_FOUND: u32 = 1;
/// A search has used up its budget.
pub const POLGAMIR_SPENT: u32 = 2;

/// This crate's version as a number; `tools/version` holds it to the header's.
const fn version_number() -> u32 {
    const fn number(part: &str) -> u32 {
        let (digits, mut at, mut value) = (part.as_bytes(), 0, 0);
        while at < digits.len() {
            value = 10 * value + (digits[at] - b'0') as u32;
            at += 1;
        }
        value
    }
    1_000_000 * number(env!("CARGO_PKG_VERSION_MAJOR"))
        + 1_000 * number(env!("CARGO_PKG_VERSION_MINOR"))
        + number(env!("CARGO_PKG_VERSION_PATCH"))
}

/// What a call returns.
#[repr(C)]
#[derive(Debug, Clone, Copy, Default)]
pub struct polgamir_answer {
    /// 0 where the job is accepted, else the refusal's number.
    pub number: u32,
    /// Bit i stands for axis i.
    pub mask: u32,
    /// A word's index, an axis's number or a window's index.
    pub place: u64,
    /// The arrival tick.
    pub arrival: u32,
}

/// One axis of a job.
#[repr(C)]
#[derive(Debug, Clone, Copy, Default)]
pub struct polgamir_axis {
    /// Where it starts.
    pub start_position: i64,
    /// How fast it moves then.
    pub start_velocity: i64,
    /// Where the target is.
    pub target_position: i64,
    /// How fast it moves.
    pub target_velocity: i64,
    /// Looked at only where the target moves.
    pub target_acceleration: i64,
    /// Looked at only where the target moves.
    pub target_tick: i64,
    /// [`POLGAMIR_FIXED`], or any other number for a moving target.
    pub target_kind: u32,
    /// L.
    pub speed_limit: u32,
    /// M.
    pub acceleration_limit: u32,
    /// h.
    pub half_period: u32,
    /// [`POLGAMIR_WEIGHT`], [`POLGAMIR_RATIO`], or any other number for two peaks.
    pub damping_kind: u32,
    /// B; of this and the next three only what the damping's kind says is looked at.
    pub second_weight: u32,
    /// A swing by the one before it.
    pub swing_ratio: f32,
    /// A peak.
    pub first_peak: f32,
    /// The peak half a period later.
    pub second_peak: f32,
    /// 0 for a pole that swings at one rate.
    pub second_sway_given: u32,
    /// Looked at only where it is given.
    pub second_half_period: u32,
}

/// A window of ticks.
#[repr(C)]
#[derive(Debug, Clone, Copy, Default)]
pub struct polgamir_window {
    /// Its first tick.
    pub opening: u32,
    /// The tick at which it closes.
    pub closing: u32,
}

/// Windows of a job.
#[repr(C)]
#[derive(Debug, Clone, Copy, Default)]
pub struct polgamir_windows {
    /// 0 for a job without windows: what follows is then not looked at.
    pub given: u32,
    /// How long the head stays from its arrival on.
    pub dwell: u32,
    /// The number of windows.
    pub count: u64,
    /// The first `count` are looked at.
    pub list: [polgamir_window; POLGAMIR_WINDOWS],
}

/// A job.
#[repr(C)]
#[derive(Debug, Clone, Copy, Default)]
pub struct polgamir_job {
    /// Bit i is set where axis i takes part.
    pub mask: u32,
    /// 0 for the least arrival, or the arrival asked for.
    pub asked: u32,
    /// An axis that is not in the mask is never looked at.
    pub axes: [polgamir_axis; POLGAMIR_AXES],
    /// The ticks in which the head may arrive.
    pub windows: polgamir_windows,
}

/// What a call for rows in parts returns.
#[repr(C)]
#[derive(Debug, Clone, Copy, Default)]
pub struct polgamir_part_answer {
    /// As in [`polgamir_answer`]; 10 never comes.
    pub number: u32,
    /// Bit i stands for axis i.
    pub mask: u32,
    /// As in [`polgamir_answer`].
    pub place: u64,
    /// The arrival tick.
    pub arrival: u32,
    /// How many rows were written.
    pub rows: u32,
}

/// A raise of one limit.
#[repr(C)]
#[derive(Debug, Clone, Copy, Default)]
pub struct polgamir_raise {
    /// [`POLGAMIR_NO_LIMIT`], [`POLGAMIR_ACCELERATION_LIMIT`] or [`POLGAMIR_SPEED_LIMIT`].
    pub limit: u32,
    /// What is added to it.
    pub by: u32,
}

/// The raises of an axis.
#[repr(C)]
#[derive(Debug, Clone, Copy, Default)]
pub struct polgamir_axis_raises {
    /// The smaller.
    pub first: polgamir_raise,
    /// The other limit's.
    pub second: polgamir_raise,
}

/// What a call for raises returns.
#[repr(C)]
#[derive(Debug, Clone, Copy, Default)]
pub struct polgamir_raises {
    /// The answer to the job.
    pub answer: polgamir_answer,
    /// The raises of axis i in entry i.
    pub axes: [polgamir_axis_raises; POLGAMIR_AXES],
}

/// A stop of a tour.
#[repr(C)]
#[derive(Debug, Clone, Copy, Default)]
pub struct polgamir_stop {
    /// Where each axis is to rest.
    pub positions: [i64; POLGAMIR_AXES],
    /// For how many ticks.
    pub dwell: u32,
}

/// The limits and the blend of an axis, as in [`polgamir_axis`].
#[repr(C)]
#[derive(Debug, Clone, Copy, Default)]
pub struct polgamir_limits {
    /// L.
    pub speed_limit: u32,
    /// M.
    pub acceleration_limit: u32,
    /// h.
    pub half_period: u32,
    /// As in [`polgamir_axis`].
    pub damping_kind: u32,
    /// B.
    pub second_weight: u32,
    /// A swing by the one before it.
    pub swing_ratio: f32,
    /// A peak.
    pub first_peak: f32,
    /// The peak half a period later.
    pub second_peak: f32,
    /// 0 for a pole that swings at one rate.
    pub second_sway_given: u32,
    /// Looked at only where it is given.
    pub second_half_period: u32,
}

/// What a tour has besides its stops.
#[repr(C)]
#[derive(Debug, Clone, Copy, Default)]
pub struct polgamir_tour {
    /// Bit i is set where axis i takes part.
    pub mask: u32,
    /// Where each axis starts, at rest.
    pub start: [i64; POLGAMIR_AXES],
    /// The same for all legs.
    pub limits: [polgamir_limits; POLGAMIR_AXES],
}

/// What a call for a tour returns.
#[repr(C)]
#[derive(Debug, Clone, Copy, Default)]
pub struct polgamir_tour_answer {
    /// 0 where the tour is accepted, else the refusal's number.
    pub number: u32,
    /// Bit i stands for axis i.
    pub mask: u32,
    /// The stop.
    pub place: u64,
    /// The arrival that a refusal names.
    pub arrival: u32,
    /// The last arrival plus its dwell.
    pub total: u32,
}

/// What a search returns.
#[repr(C)]
#[derive(Debug, Clone, Copy, Default)]
pub struct polgamir_search_answer {
    /// 0, or the refusal's number.
    pub number: u32,
    /// Bit i stands for axis i.
    pub mask: u32,
    /// As in [`polgamir_answer`].
    pub place: u64,
    /// Where it is found, the tick.
    pub arrival: u32,
    /// [`POLGAMIR_NONE`], [`POLGAMIR_FOUND`] or [`POLGAMIR_SPENT`].
    pub report: u32,
    /// Where the budget is spent, the next candidate.
    pub next: u32,
    /// The number of candidates tried.
    pub tried: u32,
}

extern "C" {
    /// The version of the library.
    pub fn polgamir_version() -> u32;

    /// Plans the job that words hold.
    pub fn polgamir_plan_words(
        words: *const u32,
        word_count: usize,
        table: *mut i64,
        table_cells: usize,
    ) -> polgamir_answer;

    /// Converts the words of an old job.
    pub fn polgamir_convert(words: *const u32, word_count: usize, lent: *mut u32, lent_count: usize)
        -> polgamir_answer;

    /// Plans a job.
    pub fn polgamir_plan_job(job: polgamir_job, table: *mut i64, table_cells: usize) -> polgamir_answer;

    /// Plans the job that words hold, with the rows from arrival backwards.
    pub fn polgamir_plan_words_backwards(
        words: *const u32,
        word_count: usize,
        table: *mut i64,
        table_cells: usize,
    ) -> polgamir_answer;

    /// Plans a job, with the rows from arrival backwards.
    pub fn polgamir_plan_job_backwards(job: polgamir_job, table: *mut i64, table_cells: usize) -> polgamir_answer;

    /// Rows from a first one on, of the job that words hold.
    pub fn polgamir_plan_words_part(
        words: *const u32,
        word_count: usize,
        first: u32,
        table: *mut i64,
        table_cells: usize,
    ) -> polgamir_part_answer;

    /// Rows of a job from a first one on.
    pub fn polgamir_plan_job_part(
        job: polgamir_job,
        first: u32,
        table: *mut i64,
        table_cells: usize,
    ) -> polgamir_part_answer;

    /// What to raise where an asked arrival is turned down with 8.
    pub fn polgamir_raises_job(job: polgamir_job) -> polgamir_raises;

    /// The same for the job that words hold.
    pub fn polgamir_raises_words(words: *const u32, word_count: usize) -> polgamir_raises;

    /// Plans a tour.
    pub fn polgamir_plan_tour(
        tour: polgamir_tour,
        stops: *const polgamir_stop,
        stop_count: usize,
        arrivals: *mut u32,
        list_entries: usize,
    ) -> polgamir_tour_answer;

    /// Searches for the arrival of a job.
    pub fn polgamir_search_job(job: polgamir_job, first: u32, budget: u32) -> polgamir_search_answer;

    /// The same for the job that words hold.
    pub fn polgamir_search_words(
        words: *const u32,
        word_count: usize,
        first: u32,
        budget: u32,
    ) -> polgamir_search_answer;
}
