//! What the desk answers: four numbers, and for a refusal the reason in words.

use std::fmt;

/// The codes of the table in "What the desk answers".
pub mod code {
    pub const NO_VERDICT: u16 = 0;
    pub const ACCEPTED: u16 = 1;
    pub const SHAPE: u16 = 2;
    pub const TOO_MANY_EVENTS: u16 = 3;
    pub const MEMORY_LENGTH: u16 = 4;
    pub const UNKNOWN_KIND: u16 = 5;
    pub const BODY_LENGTH: u16 = 6;
    pub const FIELD: u16 = 7;
    pub const ALIGNMENT: u16 = 8;
    pub const RANGE: u16 = 9;
    pub const CLASH: u16 = 10;
    pub const LOAD_RECORD: u16 = 11;
    pub const SHEET: u16 = 12;
}

/// An answer holds code, event, partner, peak. Where not named, a number is 0.
#[derive(Clone, Copy, Debug, PartialEq, Eq, Hash, PartialOrd, Ord)]
pub struct Answer {
    pub code: u16,
    pub event: u16,
    pub partner: u16,
    pub peak: u16,
}

impl Answer {
    /// No verdict: what the sheet reader gives for anything but a sheet.
    pub const NO_VERDICT: Answer = Answer::bare(code::NO_VERDICT);

    /// An answer that names no number.
    pub const fn bare(code: u16) -> Answer {
        Answer::at(code, 0)
    }

    /// An answer that names an event only.
    pub const fn at(code: u16, event: u16) -> Answer {
        Answer {
            code,
            event,
            partner: 0,
            peak: 0,
        }
    }

    /// Accepted: `event` is the number of events.
    pub const fn accepted(event: u16, peak: u16) -> Answer {
        Answer {
            code: code::ACCEPTED,
            event,
            partner: 0,
            peak,
        }
    }

    /// A clash of `event` with the earlier event `partner`.
    pub const fn clash(event: u16, partner: u16) -> Answer {
        Answer {
            code: code::CLASH,
            event,
            partner,
            peak: 0,
        }
    }
}

impl fmt::Display for Answer {
    fn fmt(&self, f: &mut fmt::Formatter<'_>) -> fmt::Result {
        let Answer {
            code,
            event,
            partner,
            peak,
        } = self;
        write!(f, "{code} {event} {partner} {peak}")
    }
}

/// Why a file is refused: the answer, and the reason for a person to read.
#[derive(Clone, Debug, PartialEq, Eq)]
pub struct Refusal {
    pub answer: Answer,
    pub reason: String,
}

impl Refusal {
    /// A refusal of the whole file.
    pub fn bare(code: u16, reason: String) -> Refusal {
        let answer = Answer::bare(code);
        Refusal { answer, reason }
    }

    /// A refusal at event number `event`.
    pub fn at(code: u16, event: usize, reason: String) -> Refusal {
        let answer = Answer::at(code, to_number(event));
        Refusal { answer, reason }
    }
}

/// A count or event number as an answer holds it. A file's are at most 1,024;
/// any larger one stays at the largest number an answer can hold.
pub fn to_number(count: usize) -> u16 {
    u16::try_from(count).unwrap_or(u16::MAX)
}
