//! The table of traces of document 01: files, and runs of some of them over
//! given bytes, each with the answer that the document gives it. Every answer
//! was worked out by hand from the document. Nothing here judges a file.

mod alignment;
mod answers;
mod clashes;
mod events;
mod fields;
mod file;
mod kinds;
mod known;
mod limits;
mod order;
mod peak;
mod range;
mod readings;
mod row;
mod runs;
mod shape;
mod waits;

pub use row::Row;
pub use runs::{runs, After, RunRow};

/// The trace files of the table.
pub fn rows() -> Vec<Row> {
    [
        known::rows(),
        readings::rows(),
        shape::rows(),
        kinds::rows(),
        fields::rows(),
        alignment::rows(),
        range::rows(),
        clashes::rows(),
        waits::rows(),
        peak::rows(),
        order::rows(),
        limits::rows(),
        runs::rows(),
    ]
    .concat()
}

/// The name of the file that lists the answers.
pub const ANSWERS: &str = "answers.txt";

/// The answers: a line `NAME code event partner peak` for each row.
pub fn answers() -> String {
    rows().iter().map(|row| format!("{} {}\n", row.name, row.answer)).collect()
}
