//! The files that are measured, for any number of events from 4 to 1,024, and the answer of each.

use crate::written::{bulk_copy, commit, copy, file, load, wait, Event};
use wrapper::Answer;

/// A family of files, one for each number of events.
pub struct Case {
    pub name: &'static str,
    pub file: fn(u16) -> Vec<u8>,
    pub answer: fn(u16) -> Answer,
}

pub const CASES: [Case; 4] = [
    Case {
        name: "sixteen_open",
        file: sixteen_open,
        answer: sixteen_open_answer,
    },
    Case {
        name: "all_open",
        file: all_open,
        answer: all_open_answer,
    },
    Case {
        name: "both_chains_open",
        file: both_chains_open,
        answer: all_open_answer,
    },
    Case {
        name: "refused_at_its_end",
        file: refused_at_its_end,
        answer: refused_at_its_end_answer,
    },
];

const MEMORY_LENGTH: u32 = 65_536;

/// So many operations are open at most in the pipeline; as many places of shared memory are used in turns.
const STAGES: u32 = 16;

/// The place of 16 bytes with this number.
fn place(number: u32) -> u32 {
    16 * number
}

fn file_of(events: impl Iterator<Item = Event>) -> Vec<u8> {
    let events: Vec<Event> = events.collect();
    file(MEMORY_LENGTH, MEMORY_LENGTH, &events)
}

/// A pipeline: copy, commit, wait for all groups but the 15 newest, load of what that wait closed.
fn sixteen_open(events: u16) -> Vec<u8> {
    let turns = (0..).flat_map(|turn| {
        [
            copy(place(turn % STAGES), place(turn)),
            commit(),
            wait(STAGES - 1),
            load(loaded_in(turn)),
        ]
    });
    file_of(turns.take(usize::from(events)))
}

/// The place that the copy of 15 turns before wrote; in the first turns nothing is closed, and a place that no copy writes
/// is loaded.
fn loaded_in(turn: u32) -> u32 {
    match turn.checked_sub(STAGES - 1) {
        Some(closed) => place(closed % STAGES),
        None => place(STAGES),
    }
}

fn sixteen_open_answer(events: u16) -> Answer {
    let copies = (events + 3) / 4;
    let peak = copies.min(STAGES as u16);
    Answer::Accepted { events, peak }
}

/// Copies to different places, none of them ever closed.
fn copies(number: u16) -> impl Iterator<Item = Event> {
    (0..u32::from(number)).map(|copied| copy(place(copied), place(copied)))
}

fn all_open(events: u16) -> Vec<u8> {
    file_of(copies(events))
}

fn all_open_answer(events: u16) -> Answer {
    Answer::Accepted {
        events,
        peak: events,
    }
}

/// Copies and bulk copies to different places, none of them ever closed, which of the two by lot: no processor foresees it.
fn both_chains_open(events: u16) -> Vec<u8> {
    let mut lot: u32 = 1;
    file_of((0..u32::from(events)).map(|number| {
        lot = lot.wrapping_mul(1_664_525).wrapping_add(1_013_904_223);
        let (destination, source) = (place(number), place(number));
        if lot >> 31 == 0 {
            copy(destination, source)
        } else {
            bulk_copy(destination, source)
        }
    }))
}

/// All events but one are copies that stay open, and the last loads what the newest of them writes.
fn refused_at_its_end(events: u16) -> Vec<u8> {
    let newest = u32::from(events) - 2;
    file_of(copies(events - 1).chain([load(place(newest))]))
}

fn refused_at_its_end_answer(events: u16) -> Answer {
    Answer::Clash {
        event: events - 1,
        partner: events - 2,
    }
}
