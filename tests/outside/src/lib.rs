//! What the tests of the planner from outside share: the calls of the static library, a
//! reference written from docs/METHOD.md that finds its sums by areas and not tick by tick, and
//! random jobs with a fixed seed.

pub mod accepted;
pub mod jobs;
pub mod leg;
pub mod library;
pub mod plain;
pub mod random;
pub mod reference;
pub mod swing;
pub mod vectors;
