//! What the tests of the command share: its runs, a reader of JSON, and what they have in
//! common with the library's tests.

#![allow(dead_code, unused_imports)]

pub mod command;
pub mod json;
#[path = "../../../polgamir/tests/common/mod.rs"]
mod shared;

pub use shared::*;
