//! docs/METHOD.md written out in Rust, without the library: what a call must return and
//! what it must leave. Velocities and positions come from closed sums (module `leg`), so a
//! row is found without the rows before it.

mod converter;
mod damping;
mod job;
mod parts;
mod planned;
mod planning;
mod program;
mod raises;
mod search;
mod single;
mod tour;
mod windows;
mod words;

pub use converter::convert;
pub use damping::Damping;
pub use job::{Answer, Axis, Job, Order, Target, LATEST, RAIL, UNSET};
pub use parts::part_of_words;
pub use planned::{Exact, Planned};
pub use program::{printed, words_of};
pub use raises::{raises_of_words, Raise, Raised};
pub use search::{search_words, Report, Search, Searched};
pub use single::Single;
pub use tour::{Stop, Tour, Toured, MOST_STOPS};
pub use windows::{Window, Windows, MOST_WINDOWS};
pub use words::{decode, fits_a_word, plan_words, plan_words_in, word};
