//! What judging costs: the proved library beside a simple judge in plain Rust, in one process.
//!
//! - [`simple`]: the opponent, a judge that compares each event with every earlier one;
//! - [`cases`]: the files that are measured, written by [`written`];
//! - [`measure`]: the time that a call takes, for both of the [`judges`] in turns;
//! - [`report`]: the tables that are printed.

#![forbid(unsafe_code)]

pub mod cases;
pub mod judges;
pub mod measure;
pub mod report;
pub mod simple;
pub mod written;
