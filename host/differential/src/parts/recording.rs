//! More recording never pardons: a list refused at one of its events keeps that answer whatever well-shaped events follow.

use crate::comparison::{Comparison, Difference};
use crate::lists::list;
use crate::random::Random;
use second::trace::Trace;
use second::Answer;
use std::collections::HashMap;

pub fn compare(comparison: &mut Comparison<'_>) -> Result<(), Difference> {
    for _ in 0..comparison.times * 20 {
        let random = &mut comparison.random;
        let mut files = Vec::new();
        let mut answers: HashMap<Vec<u8>, Answer> = HashMap::new();
        while files.len() < 500 {
            let events = 1 + random.index(20);
            let trace = list(random, events, 30);
            let answer = second::judge(&trace.write());
            if (5..=10).contains(&answer.code) {
                let file = recorded(random, &trace);
                answers.insert(file.clone(), answer);
                files.push(file);
            }
        }
        // Where a smaller file is tried, the second program's own answer serves.
        let expected = |file: &[u8]| {
            answers
                .get(file)
                .copied()
                .or_else(|| Some(second::judge(file)))
        };
        comparison.judge_as(&files, &expected)?;
    }
    Ok(())
}

/// The list's file with further events: some that a list can hold, and some of any kind and body.
fn recorded(random: &mut Random, trace: &Trace) -> Vec<u8> {
    let more = 1 + random.index(12);
    let further = list(random, more, 10);
    let mut items: Vec<(u8, Vec<u8>)> = Vec::new();
    for event in trace.events.iter().chain(&further.events) {
        items.push((event.kind(), event.body()));
    }
    for _ in 0..random.index(4) {
        let at = trace.events.len() + random.index(more);
        let length = random.pick(&[0, 4, 8, 16, 24, 300]);
        items.insert(at, (random.byte(), random.bytes(length)));
    }
    written(trace, &items)
}

/// A file of these kinds and bodies.
fn written(trace: &Trace, items: &[(u8, Vec<u8>)]) -> Vec<u8> {
    let mut file = (items.len() as u32).to_le_bytes().to_vec();
    file.extend(trace.global_length.to_le_bytes());
    file.extend(trace.shared_length.to_le_bytes());
    for (kind, body) in items {
        let length = (body.len() as u16).to_le_bytes();
        file.extend([*kind, 0, length[0], length[1]]);
    }
    file.extend(items.iter().flat_map(|(_, body)| body));
    file
}
