//! What an answer means, in one line.

use crate::Answer;
use std::fmt;

impl fmt::Display for Answer {
    fn fmt(&self, to: &mut fmt::Formatter<'_>) -> fmt::Result {
        let found = match *self {
            Answer::NoVerdict => return write!(to, "no verdict"),
            Answer::Accepted { events, peak } => {
                let (events, operations) = (count(events, "event"), count(peak, "operation"));
                return write!(to, "accepted (1): {events}, at most {operations} open");
            }
            Answer::WrongShape => "the file's shape is wrong".to_string(),
            Answer::TooManyEvents => "more events than 1,024".to_string(),
            Answer::WrongMemoryLength => {
                "a memory's length is over 65,536 bytes, or in a run not that of the memory lent"
                    .to_string()
            }
            Answer::UnknownKind { event } => format!("event {event} has an unknown kind"),
            Answer::WrongBodyLength { event } => {
                format!("event {event} has a body of the wrong length")
            }
            Answer::FieldNotAllowed { event } => {
                format!("event {event} has a field that is not allowed")
            }
            Answer::Misaligned { event } => format!("event {event} is not aligned"),
            Answer::OutOfRange { event } => format!("event {event} is out of range"),
            Answer::Clash { event, partner } => {
                format!("event {event} clashes with event {partner}")
            }
            Answer::NoRoom { .. } => "the loads do not fit the load record".to_string(),
        };
        write!(to, "refused ({}): {found}", self.numbers().code)
    }
}

/// A number of things: `1 event`, `3 events`.
fn count(number: u16, thing: &str) -> String {
    match number {
        1 => format!("1 {thing}"),
        _ => format!("{number} {thing}s"),
    }
}
