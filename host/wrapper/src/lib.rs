//! Lorvisk's proved library, called from safe Rust.
//!
//! Every function takes any bytes of any length. What each promises is proved of the function behind it
//! (`crates/lorvisk`): one answer, and nothing lent is changed where that is a refusal.

mod boundary;
mod word;

pub use answer::{Answer, Numbers};

use std::fmt;

/// The length of a verdict sheet.
pub const SHEET_LENGTH: usize = 12;

/// The answer of a trace file.
pub fn judge(file: &[u8]) -> Answer {
    word::answer(boundary::judge_file(file))
}

/// Runs a trace file over two memories and a load record. Where it is accepted, the three hold what every permitted order
/// of its events leaves; otherwise they are as they were.
pub fn run(file: &[u8], global: &mut [u8], shared: &mut [u8], loads: &mut [u8]) -> Answer {
    word::answer(boundary::run_file(file, global, shared, loads))
}

/// The answer on a verdict sheet; no verdict where the bytes are no sheet.
pub fn read_sheet(sheet: &[u8]) -> Answer {
    word::answer(boundary::read_sheet(sheet))
}

/// Writes the sheet of an answer to the first twelve bytes of what is lent; the bytes after them stay.
pub fn write_sheet(answer: Answer, out: &mut [u8]) -> Result<(), NotWritten> {
    if boundary::write_sheet(word::word(answer), out) {
        Ok(())
    } else {
        Err(NotWritten)
    }
}

/// Document 01's code 12: fewer than twelve bytes were lent, or the answer is one that no sheet holds. Nothing was written.
#[derive(Clone, Copy, Debug, PartialEq, Eq)]
pub struct NotWritten;

impl fmt::Display for NotWritten {
    fn fmt(&self, to: &mut fmt::Formatter<'_>) -> fmt::Result {
        write!(to, "the sheet is not written (12): fewer than {SHEET_LENGTH} bytes are lent, or no sheet holds the answer")
    }
}

impl std::error::Error for NotWritten {}
