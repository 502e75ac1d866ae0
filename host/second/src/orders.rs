//! The permitted orders of a short list, enumerated outright: the thread's
//! events in file order; each operation acting once, whole, after its start and
//! before the wait that closes it, or anywhere later if none does.

mod clash;
mod closing;
mod outcomes;

pub use clash::judge_by_orders;
pub use closing::closing_wait;
pub use outcomes::{outcomes, Outcome};

use crate::trace::Event;
use std::ops::ControlFlow;

/// One step of an order: an event takes its turn, or an operation acts. The
/// number is the event's; an operation has the number of the event that starts it.
#[derive(Clone, Copy, Debug, PartialEq, Eq)]
pub enum Action {
    Turn(usize),
    Act(usize),
}

/// Visits every permitted order of the list once. The list is meant to be short:
/// orders soon become many, and each step of one order is one step of recursion.
pub fn for_each(events: &[Event], visit: &mut dyn FnMut(&[Action])) {
    let _ = Order::new(events).complete(&mut |order| {
        visit(order);
        ControlFlow::Continue(())
    });
}

/// How many permitted orders the list has; none when more than `most`.
pub fn count_at_most(events: &[Event], most: usize) -> Option<usize> {
    let mut count = 0;
    for_each_at_most(events, most, &mut |_| count += 1)?;
    Some(count)
}

/// Visits every permitted order of a list that has at most `most`; for any
/// other list, stops after `most` and gives none.
fn for_each_at_most(events: &[Event], most: usize, visit: &mut dyn FnMut(&[Action])) -> Option<()> {
    let mut left = most;
    let flow = Order::new(events).complete(&mut |order| {
        if left == 0 {
            return ControlFlow::Break(());
        }
        left -= 1;
        visit(order);
        ControlFlow::Continue(())
    });
    match flow {
        ControlFlow::Continue(()) => Some(()),
        ControlFlow::Break(()) => None,
    }
}

/// An operation that has started and not yet acted.
#[derive(Clone, Copy)]
struct Started {
    operation: usize,
    closing_wait: Option<usize>,
}

/// The beginning of a permitted order.
struct Order<'a> {
    events: &'a [Event],
    actions: Vec<Action>,
    /// The number of the next event to take its turn.
    next: usize,
    started: Vec<Started>,
}

type Visit<'v> = &'v mut dyn FnMut(&[Action]) -> ControlFlow<()>;

impl<'a> Order<'a> {
    fn new(events: &'a [Event]) -> Order<'a> {
        Order {
            events,
            actions: Vec::new(),
            next: 0,
            started: Vec::new(),
        }
    }

    /// Visits every permitted order that begins like this one, by trying every
    /// action that may come next. It leaves the beginning as it was.
    fn complete(&mut self, visit: Visit<'_>) -> ControlFlow<()> {
        if self.next == self.events.len() && self.started.is_empty() {
            return visit(&self.actions);
        }
        for place in 0..self.started.len() {
            self.act(place, visit)?;
        }
        self.turn(visit)
    }

    /// Lets one of the started operations act next.
    fn act(&mut self, place: usize, visit: Visit<'_>) -> ControlFlow<()> {
        let started = self.started.remove(place);
        self.actions.push(Action::Act(started.operation));
        let flow = self.complete(visit);
        self.actions.pop();
        self.started.insert(place, started);
        flow
    }

    /// Lets the next event take its turn, if there is one and all operations
    /// that it closes have acted.
    fn turn(&mut self, visit: Visit<'_>) -> ControlFlow<()> {
        let number = self.next;
        let closes = |started: &Started| started.closing_wait == Some(number);
        let event = match self.events.get(number) {
            Some(event) if !self.started.iter().any(closes) => event,
            _ => return ControlFlow::Continue(()),
        };
        if event.starts_operation() {
            self.started.push(Started {
                operation: number,
                closing_wait: closing_wait(self.events, number),
            });
        }
        self.actions.push(Action::Turn(number));
        self.next += 1;
        let flow = self.complete(visit);
        self.next -= 1;
        self.actions.pop();
        if event.starts_operation() {
            self.started.pop();
        }
        flow
    }
}
