//! The checks for readers 11 and 12: moxcms with the book walk's step over an empty curve, which has its lines too.
use book as labelled;
use book as plain;

#[path = "check.rs"]
pub mod check;
