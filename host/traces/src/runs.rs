//! Runs of files of the table over given bytes: the answer, and the bytes that
//! the document fixes for the loads and both memories afterwards.

mod bytes;
mod known;
mod lengths;
mod loads;
mod moves;
mod reductions;
mod refusals;
mod room;
mod traces;

pub use traces::rows;

use bytes::Bytes;
use second::Answer;

/// A run of a trace file over two lent memories and a lent load record.
#[derive(Clone, Debug, PartialEq, Eq)]
pub struct RunRow {
    /// The name of the row whose file is run.
    pub trace: String,
    /// Global memory as lent.
    pub global: Vec<u8>,
    /// Shared memory as lent.
    pub shared: Vec<u8>,
    /// The load record as lent.
    pub loads: Vec<u8>,
    pub answer: Answer,
    /// The bytes afterwards; none where refused: nothing changed.
    pub after: Option<After>,
    /// What the run shows.
    pub shows: &'static str,
}

/// The bytes after a run.
#[derive(Clone, Debug, PartialEq, Eq)]
pub struct After {
    pub loads: Vec<u8>,
    pub global: Vec<u8>,
    pub shared: Vec<u8>,
}

/// The runs of the table.
pub fn runs() -> Vec<RunRow> {
    [
        known::runs(),
        lengths::runs(),
        room::runs(),
        refusals::runs(),
        moves::runs(),
        loads::runs(),
        reductions::runs(),
    ]
    .concat()
}

/// A run that is accepted, with the bytes afterwards.
fn accepted_run(
    shows: &'static str,
    trace: &str,
    lent: Bytes,
    answer: Answer,
    after: Bytes,
) -> RunRow {
    let after = After { loads: after.loads, global: after.global, shared: after.shared };
    RunRow { after: Some(after), ..refused_run(shows, trace, lent, answer) }
}

/// A run that is refused: all bytes stay as they were.
fn refused_run(shows: &'static str, trace: &str, lent: Bytes, answer: Answer) -> RunRow {
    RunRow {
        trace: format!("{trace}.trace"),
        global: lent.global,
        shared: lent.shared,
        loads: lent.loads,
        answer,
        after: None,
        shows,
    }
}
