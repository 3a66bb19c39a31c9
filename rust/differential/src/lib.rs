//! The library against the reference, word for word, on generated cases.
//!
//! Each function draws one case, makes the same calls on both sides, compares every answer and every word afterwards,
//! untouched words too, and counts the refusals seen. Tests draw a fixed number of cases; the program `soak` draws as
//! many as it is told.
#![forbid(unsafe_code)]

pub mod baseline;
pub mod builds;
pub mod databases;
pub mod dated;
pub mod defaults;
pub mod edits;
pub mod levelled;
pub mod navigation;
pub mod pulls;
pub mod shortest;
pub mod tally;

pub use tally::Tally;
