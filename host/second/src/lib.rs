//! A second judge and runner of trace files, written from documents 01 and 000 to 004.
//!
//! Each file has one subject and keeps to the document's words, so that it can
//! be read beside the document, sentence by sentence:
//!
//! - "The trace file": [`trace`], with the alignment and range of [`access`];
//! - "What the desk answers": [`answer`];
//! - "Opening, closing, clashing": [`groups`], [`judge`](mod@judge), [`memory`]
//!   and [`run`](mod@run), and the permitted orders outright in [`orders`];
//! - "The verdict sheet": [`sheet`].

#![forbid(unsafe_code)]

pub mod access;
pub mod answer;
pub mod groups;
pub mod judge;
pub mod memory;
pub mod orders;
pub mod run;
pub mod sheet;
pub mod trace;

pub use answer::Answer;
pub use judge::judge;
pub use run::run;
