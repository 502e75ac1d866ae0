//! The four numbers of an answer.

use std::fmt;

/// Code, event, partner and peak of an answer; code 0 is no verdict.
#[derive(Clone, Copy, Debug, PartialEq, Eq)]
pub struct Numbers {
    pub code: u16,
    pub event: u16,
    pub partner: u16,
    pub peak: u16,
}

impl fmt::Display for Numbers {
    fn fmt(&self, to: &mut fmt::Formatter<'_>) -> fmt::Result {
        let Numbers {
            code,
            event,
            partner,
            peak,
        } = self;
        write!(to, "{code} {event} {partner} {peak}")
    }
}
