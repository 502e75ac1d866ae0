//! The answer to a file, with clashes and the peak found by looking at all
//! permitted orders of the list up to each event.

use super::{for_each_at_most, Action};
use crate::access::{accesses, check, Access};
use crate::answer::{to_number, Answer};
use crate::trace::{shape, Event, Shape};

/// The answer to a file; none where a list up to some event has more than
/// `most` permitted orders.
pub fn judge_by_orders(file: &[u8], most: usize) -> Option<Answer> {
    match shape(file) {
        Ok(shape) => judge_shape(&shape, most),
        Err(refusal) => Some(refusal.answer),
    }
}

fn judge_shape(shape: &Shape<'_>, most: usize) -> Option<Answer> {
    let mut events = Vec::new();
    let mut peak = 0;
    for last in 0..shape.len() {
        match shape.event(last) {
            Ok(event) => events.push(event),
            Err(refusal) => return Some(refusal.answer),
        }
        let checked = check(&events[last], shape.global_length, shape.shared_length);
        if let Err((code, _)) = checked {
            return Some(Answer::at(code, to_number(last)));
        }
        let seen = look_at_orders(&events, most)?;
        if let Some(partner) = (0..last).find(|&earlier| clash(&events, &seen, earlier)) {
            return Some(Answer::clash(to_number(last), to_number(partner)));
        }
        peak = peak.max(seen.iter().filter(|seen| seen.open).count());
    }
    Some(Answer::accepted(to_number(events.len()), to_number(peak)))
}

/// What the permitted orders of a list show of one of its events.
#[derive(Clone, Copy, Default)]
struct Seen {
    /// Some order puts its accesses before those of the last event.
    before_last: bool,
    /// Some order puts its accesses after those of the last event.
    after_last: bool,
    /// It is an operation that acts, in some order, after the last event's turn.
    open: bool,
}

fn look_at_orders(events: &[Event], most: usize) -> Option<Vec<Seen>> {
    let mut seen = vec![Seen::default(); events.len()];
    for_each_at_most(events, most, &mut |order| {
        let places = places(events, order);
        let of_last = places.last().copied().unwrap_or(0);
        for (seen, place) in seen.iter_mut().zip(places) {
            seen.before_last |= place < of_last;
            seen.after_last |= place > of_last;
        }
        let last_turn = Action::Turn(events.len() - 1);
        for action in order.iter().skip_while(|action| **action != last_turn) {
            if let Action::Act(operation) = *action {
                seen[operation].open = true;
            }
        }
    })?;
    Some(seen)
}

/// The place in an order at which each event accesses its bytes: an operation
/// where it acts, any other event at its turn.
fn places(events: &[Event], order: &[Action]) -> Vec<usize> {
    let mut places = vec![0; events.len()];
    for (place, action) in order.iter().enumerate() {
        match *action {
            Action::Turn(event) if events[event].starts_operation() => {}
            Action::Turn(event) | Action::Act(event) => places[event] = place,
        }
    }
    places
}

/// Whether the last event clashes with an earlier one: an access of the one and
/// an access of the other clash.
fn clash(events: &[Event], seen: &[Seen], earlier: usize) -> bool {
    let either_way = seen[earlier].before_last && seen[earlier].after_last;
    let last = &events[events.len() - 1];
    let earlier = &events[earlier];
    let conflict = |a: &Access| accesses(earlier).iter().any(|b| share_a_written_byte(a, b));
    either_way && !reductions_alike(last, earlier) && accesses(last).iter().any(conflict)
}

/// They share a byte of one memory, and at least one writes it.
fn share_a_written_byte(a: &Access, b: &Access) -> bool {
    let one_memory = a.range.space == b.range.space;
    let share = a.range.start < b.range.end() && b.range.start < a.range.end();
    one_memory && share && (a.writes || b.writes)
}

/// Two reductions of one operation and one type.
fn reductions_alike(a: &Event, b: &Event) -> bool {
    match (a, b) {
        (
            Event::Reduction {
                operation: operation_a,
                element: element_a,
                ..
            },
            Event::Reduction {
                operation: operation_b,
                element: element_b,
                ..
            },
        ) => operation_a == operation_b && element_a == element_b,
        _ => false,
    }
}
