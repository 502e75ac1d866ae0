//! The answers that a trace file can get, by the numbers of document 01.

use second::Answer;

/// 1: accepted, with the number of events and the peak.
pub const fn accepted(events: u16, peak: u16) -> Answer {
    Answer::accepted(events, peak)
}

/// 2: the shape of the file is wrong.
pub const SHAPE: Answer = Answer::bare(2);

/// 3: more than 1,024 events.
pub const TOO_MANY: Answer = Answer::bare(3);

/// 4: a memory length over 65,536 or, in a run, not that of the lent memory.
pub const MEMORY: Answer = Answer::bare(4);

/// 5: unknown kind.
pub const fn unknown_kind(event: u16) -> Answer {
    Answer::at(5, event)
}

/// 6: body length not the kind's.
pub const fn body_length(event: u16) -> Answer {
    Answer::at(6, event)
}

/// 7: a field that is not allowed.
pub const fn field(event: u16) -> Answer {
    Answer::at(7, event)
}

/// 8: alignment.
pub const fn alignment(event: u16) -> Answer {
    Answer::at(8, event)
}

/// 9: range.
pub const fn range(event: u16) -> Answer {
    Answer::at(9, event)
}

/// 10: clash, with the earlier event.
pub const fn clash(event: u16, partner: u16) -> Answer {
    Answer::clash(event, partner)
}

/// 11: in a run, the loads don't fit the lent load record.
pub const fn no_room(events: u16) -> Answer {
    Answer::at(11, events)
}
