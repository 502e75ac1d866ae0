//! Why a file got its answer, in words. The answer is the proved judge's; the words come from the second program's reading
//! of the file. Where that program answers otherwise, this is said instead.

use crate::input::{cannot_be_read, open};
use crate::remedy;
use crate::trouble::Trouble;
use answer::Numbers;
use second::access::{accesses, check, Access, Range};
use second::trace::{shape, Event, Shape};
use std::io::Read;
use std::path::Path;

/// The longest file of the right shape: 1,024 events with bodies of 65,535 bytes. What is longer is wrong by its length, and
/// a byte more is enough to tell.
const LONGEST: u64 = 12 + 1_024 * (4 + 65_535);

/// The lines that explain the answer of the file at this path.
pub fn lines(path: &Path, answer: Numbers) -> Result<Vec<String>, Trouble> {
    let file = open(path)?;
    let length = file.metadata().map_err(cannot_be_read)?.len();
    let mut bytes = Vec::new();
    file.take(LONGEST + 1)
        .read_to_end(&mut bytes)
        .map_err(cannot_be_read)?;
    let ground = match (answer.code, length) {
        (2, length) if length > LONGEST => Some(vec![format!(
            "the file has {length} bytes; none of the right shape has more than {LONGEST}"
        )]),
        _ => ground(&bytes, answer),
    };
    let unfounded = "the second program finds no ground for this answer: please report the file";
    Ok(ground.unwrap_or_else(|| vec![unfounded.to_string()]))
}

/// The ground for an answer, if it is found: the second program has to give the same.
fn ground(file: &[u8], answer: Numbers) -> Option<Vec<String>> {
    if second::judge(file).to_string() != answer.to_string() {
        return None;
    }
    let event = usize::from(answer.event);
    let shape = match (answer.code, shape(file)) {
        (2..=4, Err(refusal)) if refusal.answer.code == answer.code => {
            return Some(vec![refusal.reason]);
        }
        (_, shape) => shape.ok()?,
    };
    match (answer.code, shape.event(event)) {
        (1, _) => Some(vec!["no two accesses clash".to_string()]),
        (5..=7, Err(refusal)) if refusal.answer.code == answer.code => {
            Some(vec![format!("event {event}: {}", refusal.reason)])
        }
        (8..=9, Ok(found)) => fault(&shape, event, &found, answer.code),
        (10, Ok(found)) => {
            let events: Result<Vec<Event>, _> =
                (0..event).map(|before| shape.event(before)).collect();
            clash(&events.ok()?, &found, answer.partner.into())
        }
        _ => None,
    }
}

fn fault(shape: &Shape<'_>, event: usize, found: &Event, code: u16) -> Option<Vec<String>> {
    let (global, shared) = (shape.global_length, shape.shared_length);
    match check(found, global, shared) {
        Err((fault, reason)) if fault == code => {
            Some(vec![format!("event {event}: {found}"), reason])
        }
        _ => None,
    }
}

/// A clash of an event with an earlier one, told from the events before it.
fn clash(before: &[Event], found: &Event, partner: usize) -> Option<Vec<String>> {
    let event = before.len();
    let earlier = before.get(partner)?;
    let mut lines = vec![
        format!("event {event}: {found}"),
        format!("event {partner}: {earlier}"),
    ];
    for here in accesses(found) {
        for there in accesses(earlier) {
            if let Some(bytes) = shared_bytes(&here, &there) {
                let (does, did) = (verb(&here), verb(&there));
                lines.push(format!(
                    "event {event} {does} and event {partner} {did} {bytes}"
                ));
            }
        }
    }
    if lines.len() == 2 {
        return None;
    }
    lines.push(format!(
        "event {partner} is still open there: it may act before or after event {event}"
    ));
    lines.extend(remedy::lines(before, partner)?);
    Some(lines)
}

fn verb(access: &Access) -> &'static str {
    match access.writes {
        true => "writes",
        false => "reads",
    }
}

/// The bytes that both touch, if one of them writes.
fn shared_bytes(one: &Access, other: &Access) -> Option<String> {
    let (one_range, other_range): (Range, Range) = (one.range, other.range);
    let start = one_range.start.max(other_range.start);
    let end = one_range.end().min(other_range.end());
    if one_range.space != other_range.space || !(one.writes || other.writes) || start >= end {
        return None;
    }
    let space = one_range.space;
    match end - start {
        1 => Some(format!("{space} byte {start}")),
        _ => Some(format!("{space} bytes {start} to {}", end - 1)),
    }
}
