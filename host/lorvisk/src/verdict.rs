//! The exit status of an answer.

use answer::Answer;

/// How a command ends. The larger is the worse, and several files end with the worst.
#[derive(Clone, Copy, Debug, PartialEq, Eq, PartialOrd, Ord)]
pub enum Status {
    Accepted = 0,
    Refused = 1,
    /// The command line, or a file that it names, cannot be used.
    Unusable = 2,
    NoVerdict = 3,
}

/// Silence is no approval: only `Accepted` ends with 0.
pub fn status(answer: Answer) -> Status {
    match answer {
        Answer::Accepted { .. } => Status::Accepted,
        Answer::NoVerdict => Status::NoVerdict,
        _ => Status::Refused,
    }
}
