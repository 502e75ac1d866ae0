//! All distinct outcomes of a file over all its permitted orders.

use super::{for_each_at_most, Action};
use crate::access::check;
use crate::memory::Memories;
use crate::trace::{read, Event};
use std::collections::BTreeSet;

/// What an order leaves behind: both memories, and the loads' bytes in file order.
#[derive(Clone, Debug, PartialEq, Eq, PartialOrd, Ord)]
pub struct Outcome {
    pub global: Vec<u8>,
    pub shared: Vec<u8>,
    pub loads: Vec<u8>,
}

/// The distinct outcomes of all permitted orders, sorted; several where the
/// list clashes. None where there are more than `most` orders, and none for a
/// file that gets one of 2 to 9 or whose memory lengths are not those lent.
pub fn outcomes(file: &[u8], global: &[u8], shared: &[u8], most: usize) -> Option<Vec<Outcome>> {
    let trace = read(file).ok()?;
    let (global_length, shared_length) = (trace.global_length, trace.shared_length);
    let lent = [u32::try_from(global.len()), u32::try_from(shared.len())];
    if lent != [Ok(global_length), Ok(shared_length)] {
        return None;
    }
    for event in &trace.events {
        check(event, global_length, shared_length).ok()?;
    }
    let mut outcomes = BTreeSet::new();
    for_each_at_most(&trace.events, most, &mut |order| {
        outcomes.insert(outcome(&trace.events, order, global, shared));
    })?;
    Some(outcomes.into_iter().collect())
}

/// The outcome of one order.
fn outcome(events: &[Event], order: &[Action], global: &[u8], shared: &[u8]) -> Outcome {
    let mut outcome = Outcome {
        global: global.to_vec(),
        shared: shared.to_vec(),
        loads: Vec::new(),
    };
    let mut memories = Memories::new(&mut outcome.global, &mut outcome.shared);
    for action in order {
        match *action {
            Action::Act(operation) => memories.act(&events[operation]),
            Action::Turn(number) => match &events[number] {
                Event::Load { place, size } => {
                    outcome.loads.extend(memories.load(*place, *size));
                }
                Event::Store { place, size, value } => memories.store(*place, *size, value),
                _ => {}
            },
        }
    }
    outcome
}
