//! More waiting never harms: an accepted list with waits added or lowered is accepted, with the same bytes.

use crate::comparison::{hex, Comparison, Difference};
use crate::lists::{accepted, any_wait, pipeline};
use crate::parts::runs::{lent, room};
use crate::random::Random;
use crate::subject::Lent;
use second::trace::{Event, Trace};

pub fn compare(comparison: &mut Comparison<'_>) -> Result<(), Difference> {
    for _ in 0..comparison.times * 40 {
        let random = &mut comparison.random;
        let (mut before, mut after) = (Vec::new(), Vec::new());
        for _ in 0..100 {
            let (events, depth) = (1 + random.index(25), random.index(5));
            let trace = match random.one_in(3) {
                true => pipeline(random, events, depth),
                false => accepted(random, events),
            };
            let lent = lent(random, &trace, room(&trace));
            after.push(Lent {
                file: waited(random, &trace).write(),
                ..lent.clone()
            });
            before.push(lent);
        }
        let ran_before = comparison.run(&before)?;
        let ran_after = comparison.run(&after)?;
        for (at, (one, other)) in ran_before.iter().zip(&ran_after).enumerate() {
            if one.left.is_none() || one.left != other.left {
                return Err(Difference {
                    shows: "a list and the same with more waiting leave the same".to_string(),
                    files: vec![
                        ("file", before[at].file.clone()),
                        ("with more waiting", after[at].file.clone()),
                    ],
                    proved: hex(&other.sheet),
                    expected: hex(&one.sheet),
                });
            }
        }
    }
    Ok(())
}

/// The list with waits added anywhere and numbers of waits lowered.
fn waited(random: &mut Random, trace: &Trace) -> Trace {
    let mut trace = trace.clone();
    for event in &mut trace.events {
        if let Event::Wait { n } | Event::BulkWait { n } = event {
            if random.one_in(2) {
                *n = random.below(u64::from(*n) + 1) as u32;
            }
        }
    }
    for _ in 0..random.index(5) {
        let at = random.index(trace.events.len() + 1);
        trace.events.insert(at, any_wait(random));
    }
    trace
}
