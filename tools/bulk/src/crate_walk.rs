//! The checks for readers 1 to 10: moxcms as it is, and its lines.
use labelled;
use oracle as plain;

#[path = "check.rs"]
pub mod check;
