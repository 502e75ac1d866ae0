//! The run of a trace file over two lent memories and a lent load record.

use crate::answer::{code, Answer, Refusal};
use crate::groups::Chains;
use crate::judge::judge_in_words;
use crate::memory::Memories;
use crate::trace::{self, Event};

/// Runs a file. A refusal writes nothing: both memories and the load record
/// keep all their bytes. An accepted file acts on the memories and appends its
/// loads to the load record in file order; bytes past them stay.
///
/// Of the permitted orders, which all end alike in an accepted file, this run
/// takes the latest: each operation acts just before the wait that closes it,
/// or at the end, and of several that act together the newest is the first.
pub fn run(file: &[u8], global: &mut [u8], shared: &mut [u8], loads: &mut [u8]) -> Answer {
    match accept(file, global.len(), shared.len(), loads.len()) {
        Err(refusal) => refusal.answer,
        Ok((answer, events)) => {
            act(&events, &mut Memories::new(global, shared), loads);
            answer
        }
    }
}

/// The events of an accepted file, or the first refusal of 2 to 11.
fn accept(
    file: &[u8],
    global: usize,
    shared: usize,
    loads: usize,
) -> Result<(Answer, Vec<Event>), Refusal> {
    let shape = trace::shape(file)?;
    // Unequal lengths are code 4, which comes before every event.
    lent_length("global", shape.global_length, global)?;
    lent_length("shared", shape.shared_length, shared)?;
    let answer = judge_in_words(file)?;
    let events = trace::read(file)?.events;
    let loaded: usize = events.iter().map(bytes_loaded).sum();
    if loaded > loads {
        let reason = format!("the loads total {loaded} bytes; the load record has {loads}");
        return Err(Refusal::at(code::LOAD_RECORD, events.len(), reason));
    }
    Ok((answer, events))
}

fn lent_length(memory: &str, length: u32, lent: usize) -> Result<(), Refusal> {
    if usize::try_from(length) == Ok(lent) {
        return Ok(());
    }
    let reason = format!("{memory} length is {length}; the lent memory has {lent} bytes");
    Err(Refusal::bare(code::MEMORY_LENGTH, reason))
}

fn bytes_loaded(event: &Event) -> usize {
    match *event {
        Event::Load { size, .. } => size.into(),
        _ => 0,
    }
}

/// The thread's events in file order, each operation as late as permitted.
fn act(events: &[Event], memories: &mut Memories<'_>, loads: &mut [u8]) {
    let mut chains = Chains::default();
    let mut record = loads.iter_mut();
    for (number, event) in events.iter().enumerate() {
        let closed = chains.take(number, event);
        act_together(events, closed, memories);
        match event {
            Event::Load { place, size } => {
                for byte in memories.load(*place, *size) {
                    if let Some(into) = record.next() {
                        *into = *byte;
                    }
                }
            }
            Event::Store { place, size, value } => memories.store(*place, *size, value),
            _ => {}
        }
    }
    // Operations still open at the end act then.
    act_together(events, chains.open(), memories);
}

/// These operations act one after the other, the newest first.
fn act_together(events: &[Event], mut operations: Vec<usize>, memories: &mut Memories<'_>) {
    operations.sort_unstable();
    for operation in operations.into_iter().rev() {
        if let Some(event) = events.get(operation) {
            memories.act(event);
        }
    }
}
