//! Motion tables for a scanner head on a swaying pole, planned by a proved library.
//!
//! A [`Job`] says for each axis where it starts, what it is to land on, its limits, and the half
//! period and damping of the pole under it. [`Job::plan`] gives a [`Plan`]: a table of position,
//! velocity and acceleration, a row a tick. Every axis lands exactly on its target, all at one
//! tick, and the pole stands still.
//!
//! ```
//! use polgamir::{Axis, Damping, Job, Refusal, RestPoint, Target};
//!
//! let pan = Axis {
//!     start: RestPoint { position: 0, velocity: 0 },
//!     speed_limit: 10,
//!     acceleration_limit: 1,
//!     half_period: 3,              // the pole swings over in three ticks
//!     damping: Damping::Ratio(0.5), // and keeps half its swing
//!     second_half_period: None,
//!     target: Target::still(6),
//! };
//! let plan = Job::earliest().with_axis(0, pan).plan()?;
//! assert_eq!(plan.arrival(), 8);
//! for row in &plan {
//!     for (axis, motion) in row.axes() {
//!         println!("tick {} axis {axis}: {} units", row.tick(), motion.position_in_units());
//!     }
//! }
//! # Ok::<(), Refusal>(())
//! ```
//!
//! # What a refusal is
//!
//! A job that cannot be planned gives a [`Refusal`] in place of a plan: a number, and what it
//! names. Its text says which fields to look at. [`Job::raises`] says by how much to raise a limit
//! so that an asked arrival can be made.
//!
//! ```
//! # use polgamir::{Axis, Damping, Job, Refusal, RestPoint, Target};
//! # let pan = Axis {
//! #     start: RestPoint { position: 0, velocity: 0 },
//! #     speed_limit: 10,
//! #     acceleration_limit: 1,
//! #     half_period: 3,
//! #     damping: Damping::Ratio(0.5),
//! #     second_half_period: None,
//! #     target: Target::still(6),
//! # };
//! let too_soon = Job::arriving_at(5).with_axis(0, pan);
//! let refusal = too_soon.plan().unwrap_err();
//! assert_eq!(refusal.printed_line(), "refused 8 place 0 axes 1 arrival 0");
//! ```
//!
//! # Units
//!
//! Time is a whole number of ticks. Inputs are whole units, units per tick and units per tick². The
//! cells of a table are in fine steps, 1/256 unit: [`in_units`] turns them back.
//!
//! # Where to look
//!
//! | you want | look at |
//! |---|---|
//! | a table in lent memory, without an allocation | [`plan()`], [`cells_needed`], [`Accepted`] |
//! | the last row first | [`Job::plan_backwards`], [`Order`] |
//! | some rows at a time, for little memory | [`Job::rows_in_parts`], [`plan_part`] |
//! | the arrival, a few candidates a call | [`Job::search`] |
//! | a job that arrives in a window | [`Windows`] |
//! | a tour of stops | [`Tour`], [`Stop`], [`Tour::leg`] |
//! | the most sway that a pole measured wrongly leaves | [`Axis::sway_bound`] |
//! | set-up sheets | [`sheet::Sheet`], [`sheet::TourSheet`] |
//! | job words | [`Job::to_words`], [`Job::from_words`], [`plan_words`], [`convert()`] |
//!
//! What the library promises is proved for every job: `docs/BUYERS.md` of the repository. The
//! method, with the list of refusals, is `docs/METHOD.md`. This crate is a thin, safe layer without
//! state and without dependencies but [`polgamir_sys`], which says how the library is found.

#![warn(missing_docs)]
#![deny(unsafe_code)]

mod converter;
mod damping;
mod job;
#[allow(unsafe_code)]
mod library;
mod part;
mod plan;
mod raises;
mod range;
mod refusal;
mod rows;
mod search;
pub mod sheet;
mod sway;
mod tour;
mod windows;
mod words;

pub use converter::{convert, convert_into};
pub use damping::Damping;
pub use job::{Arrival, Axis, Job, RestPoint, State, Target};
pub use part::{plan_part, plan_words_part, OwnedRow, Part, RowsInParts};
pub use plan::{cells_needed, plan, plan_backwards, plan_words, plan_words_backwards, Accepted, Plan, MOST_CELLS};
pub use raises::{raises, raises_words, AxisRaises, Limit, Raise, Raises};
pub use range::OutOfRange;
pub use refusal::{AxisMask, Refusal};
pub use rows::{in_units, Motion, Order, Row, Rows};
pub use search::{search_words, Report, Searched};
pub use sway::{Fraction, NoBound, SwayLeft};
pub use tour::{Schedule, Stop, Tour, TourAxis, TourRefusal, LONGEST_DWELL, MOST_STOPS};
pub use windows::{Window, Windows, MOST_WINDOWS};
pub use words::{NoWords, PayloadError, WordError, WordFault, WordKind};

/// A job has at most this many axes, numbered from 0.
pub const AXES: usize = 6;

/// The latest arrival.
pub const LATEST_ARRIVAL: u32 = 4096;

/// The fine steps of a unit.
pub const FINE_STEPS: i64 = 256;

/// The examples of the crate's README, as tests.
#[cfg(doctest)]
#[doc = include_str!("../README.md")]
pub struct ReadmeExamples;
