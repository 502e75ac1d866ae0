//! The wait that closes an operation, found by counting groups.

use crate::trace::Event;

/// The number of the wait that closes an operation, if one does.
///
/// Of the groups made so far, count the operation's own and those made after
/// it: wait N keeps the N newest, so it closes the operation when the count is
/// over N. An uncommitted operation has a count of 0 and stays open.
pub fn closing_wait(events: &[Event], operation: usize) -> Option<usize> {
    let start = events.get(operation)?;
    let mut own_group_and_newer: u64 = 0;
    for (number, event) in events.iter().enumerate() {
        if number <= operation {
            continue;
        }
        if makes_group(event, start) {
            own_group_and_newer += 1;
        }
        match newest_kept(event, start) {
            Some(n) if own_group_and_newer > u64::from(n) => return Some(number),
            _ => {}
        }
    }
    None
}

/// Whether the event makes a group of operations like the one that `start` starts.
fn makes_group(event: &Event, start: &Event) -> bool {
    match start {
        Event::Copy { .. } => matches!(event, Event::Commit | Event::WaitAll),
        Event::BulkCopy { .. } | Event::Reduction { .. } => matches!(event, Event::BulkCommit),
        _ => false,
    }
}

/// The N of a wait for operations like the one that `start` starts.
fn newest_kept(event: &Event, start: &Event) -> Option<u32> {
    match (start, event) {
        (Event::Copy { .. }, Event::Wait { n }) => Some(*n),
        (Event::Copy { .. }, Event::WaitAll) => Some(0),
        (Event::BulkCopy { .. } | Event::Reduction { .. }, Event::BulkWait { n }) => Some(*n),
        _ => None,
    }
}
