//! Runs over random memories and load records.

use crate::comparison::{Comparison, Difference};
use crate::damage::damaged;
use crate::lists::{accepted, list, list_over, loads, mended, pipeline};
use crate::random::Random;
use crate::subject::Lent;
use second::trace::{Event, GlobalAddress, SharedAddress, Trace};

pub fn compare(comparison: &mut Comparison<'_>) -> Result<(), Difference> {
    for _ in 0..comparison.times {
        for _ in 0..60 {
            let runs: Vec<Lent> = (0..200).map(|_| any_run(&mut comparison.random)).collect();
            comparison.run(&runs)?;
        }
        for _ in 0..20 {
            let runs: Vec<Lent> = (0..5).map(|_| long_run(&mut comparison.random)).collect();
            comparison.run(&runs)?;
        }
    }
    Ok(())
}

/// What the loads of a list need in the load record.
pub fn room(trace: &Trace) -> usize {
    let sizes = trace.events.iter().map(|event| match event {
        Event::Load { size, .. } => usize::from(*size),
        _ => 0,
    });
    sizes.sum()
}

/// The list's file, with random memories of the lengths that it says and a record of this room.
pub fn lent(random: &mut Random, trace: &Trace, room: usize) -> Lent {
    Lent {
        file: trace.write(),
        loads: random.bytes(room),
        global: random.bytes(trace.global_length as usize),
        shared: random.bytes(trace.shared_length as usize),
    }
}

fn any_run(random: &mut Random) -> Lent {
    let events = random.index(30);
    let trace = match random.below(6) {
        0 => list(random, events, 100),
        1 => pipeline(random, events, 3),
        _ => accepted(random, events),
    };
    let needed = room(&trace);
    let room = match random.below(6) {
        0 => needed.saturating_sub(1),
        1 => needed + 1 + random.index(20),
        2 => random.index(needed + 1),
        _ => needed,
    };
    let mut lent = lent(random, &trace, room);
    match random.below(24) {
        0 => lent.global.push(random.byte()),
        1 => lent.shared.push(random.byte()),
        2 => drop(lent.global.pop()),
        3 => drop(lent.shared.pop()),
        4 => lent.file = damaged(random, &lent.file),
        _ => {}
    }
    lent
}

/// A bulk copy as long as a bulk copy can be.
fn whole_memory() -> Trace {
    let event = Event::BulkCopy {
        dst: GlobalAddress(0),
        src: SharedAddress(0),
        size: 65_536,
    };
    Trace {
        global_length: 65_536,
        shared_length: 65_536,
        events: vec![event],
    }
}

/// Hundreds of events, or memories of 65,536 bytes.
fn long_run(random: &mut Random) -> Lent {
    let events = 100 + random.index(900);
    let lengths = [256, 4_096, 65_536];
    let (global, shared) = (random.pick(&lengths), random.pick(&lengths));
    let trace = match random.below(8) {
        0 => pipeline(random, 330, 300),
        1 => loads(random, events, global, shared),
        2 => whole_memory(),
        _ => {
            let trace = list_over(random, events, 0, global, shared);
            mended(random, trace)
        }
    };
    let room = room(&trace).saturating_sub(random.index(2));
    lent(random, &trace, room)
}
