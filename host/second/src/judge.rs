//! The judge: events in order, each checked 5 to 10, and the peak.

mod bytes;

use crate::access;
use crate::answer::{to_number, Answer, Refusal};
use crate::groups::Chains;
use crate::trace::{self, Event};
use bytes::{Bytes, ClashingByte};
use std::collections::BTreeMap;

/// The answer to a file.
pub fn judge(file: &[u8]) -> Answer {
    judge_in_words(file).unwrap_or_else(|refusal| refusal.answer)
}

/// The answer to a file: accepted, or the first refusal with its reason.
pub fn judge_in_words(file: &[u8]) -> Result<Answer, Refusal> {
    let shape = trace::shape(file)?;
    let mut judging = Judging::new(shape.global_length, shape.shared_length);
    for number in 0..shape.len() {
        // An event that does not decode ends the judging at once.
        let event = shape.event(number)?;
        judging.check(number, &event)?;
        judging.take(number, event);
    }
    Ok(Answer::accepted(
        to_number(shape.len()),
        to_number(judging.peak),
    ))
}

/// Where the judging stands after some events, none of them refused.
struct Judging {
    global_length: u32,
    shared_length: u32,
    chains: Chains,
    /// The open operations, by event number.
    open: BTreeMap<usize, Event>,
    /// The same open operations, seen from the bytes they touch.
    bytes: Bytes,
    peak: usize,
}

impl Judging {
    fn new(global_length: u32, shared_length: u32) -> Judging {
        Judging {
            global_length,
            shared_length,
            chains: Chains::default(),
            open: BTreeMap::new(),
            bytes: Bytes::untouched(global_length, shared_length),
            peak: 0,
        }
    }

    /// Alignment, range, clash: the first that applies.
    fn check(&self, number: usize, event: &Event) -> Result<(), Refusal> {
        access::check(event, self.global_length, self.shared_length)
            .map_err(|(code, reason)| Refusal::at(code, number, reason))?;
        match self.partner(event) {
            None => Ok(()),
            Some(partner) => Err(clash(number, event, &partner)),
        }
    }

    /// The lowest open operation that clashes with the event. Only an open one
    /// can still act on either side of it: the thread's events keep file order,
    /// and a closed operation has acted.
    fn partner(&self, event: &Event) -> Option<Partner> {
        // Most events clash with nothing, which the bytes tell at once.
        self.bytes.clash(event)?;
        // Else the open operations are put one by one, the lowest first, on
        // untouched memories, until the event clashes with what lies there.
        let mut bytes = Bytes::untouched(self.global_length, self.shared_length);
        self.open.iter().find_map(|(&number, &operation)| {
            bytes.open(&operation);
            bytes.clash(event).map(|byte| Partner {
                number,
                operation,
                byte,
            })
        })
    }

    /// The event takes its turn: it may close operations, or start one.
    fn take(&mut self, number: usize, event: Event) {
        for closed in self.chains.take(number, &event) {
            if let Some(operation) = self.open.remove(&closed) {
                self.bytes.close(&operation);
            }
        }
        if event.starts_operation() {
            self.bytes.open(&event);
            self.open.insert(number, event);
        }
        // Peak is the largest number of operations open after any event.
        self.peak = self.peak.max(self.open.len());
    }
}

/// An open operation that clashes with an event, and a byte the two share.
struct Partner {
    number: usize,
    operation: Event,
    byte: ClashingByte,
}

fn clash(event_number: usize, event: &Event, partner: &Partner) -> Refusal {
    let answer = Answer::clash(to_number(event_number), to_number(partner.number));
    let ClashingByte { space, address } = partner.byte;
    let reason = format!(
        "event {event_number} ({event}) and event {} ({}), which is still open, \
         share {space} byte {address}; permitted orders put them either way",
        partner.number, partner.operation
    );
    Refusal { answer, reason }
}
