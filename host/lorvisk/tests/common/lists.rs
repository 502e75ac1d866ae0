//! Document 01's file in full, and its traces on both sides.

use super::trace::*;

/// The file in full, byte for byte.
pub const ACCEPTED_FILE: [u8; 48] = [
    0x03, 0x00, 0x00, 0x00, 0x10, 0x00, 0x00, 0x00, 0x10, 0x00, 0x00, 0x00, 0x10, 0x00, 0x10, 0x00,
    0x13, 0x00, 0x00, 0x00, 0x01, 0x00, 0x08, 0x00, 0x00, 0x00, 0x00, 0x00, 0x00, 0x00, 0x00, 0x00,
    0x00, 0x00, 0x00, 0x00, 0x04, 0x00, 0x00, 0x00, 0x01, 0x04, 0x00, 0x00, 0x00, 0x00, 0x00, 0x00,
];

/// Its sheet, and its sheet without the wait.
pub const ACCEPTED_SHEET: [u8; 12] = [4, 0, 8, 0, 3, 0, 0, 0, 1, 0, 1, 0];
pub const REFUSED_SHEET: [u8; 12] = [4, 0, 8, 0, 1, 0, 0, 0, 0, 0, 0x0a, 0];

/// What the tool prints of both, after the file's name.
pub const ACCEPTED_LINE: &str = "accepted (1): 3 events, at most 1 operation open";
pub const REFUSED_LINE: &str = "refused (10): event 1 clashes with event 0";

/// The file in full without the wait.
pub fn refused_file() -> Vec<u8> {
    file(16, 16, &k2())
}

/// The file of a list over memories that hold every list of this page.
pub fn file_of(events: &[Event]) -> Vec<u8> {
    file(64, 64, events)
}

pub fn k1() -> Vec<Event> {
    vec![copy(0, 0, 4), wait_all(), load(SHARED, 4, 0)]
}

pub fn k2() -> Vec<Event> {
    vec![copy(0, 0, 4), load(SHARED, 4, 0)]
}

pub fn k3() -> Vec<Event> {
    vec![copy(0, 0, 4), commit(), wait(0), load(SHARED, 4, 0)]
}

pub fn k4() -> Vec<Event> {
    vec![copy(0, 0, 4), wait(0), load(SHARED, 4, 0)]
}

/// Three copies to 0, 16 and 32, and a load at this address after wait 1.
pub fn k5(loaded: u32) -> Vec<Event> {
    let mut events: Vec<Event> = [0, 16, 32]
        .into_iter()
        .flat_map(|place| [copy(place, place, 16), commit()])
        .collect();
    events.extend([wait(1), load(SHARED, 16, loaded)]);
    events
}

pub fn k6() -> Vec<Event> {
    vec![copy(0, 0, 4), commit(), copy(0, 4, 4)]
}

/// A store at this global address while a copy of three of four bytes is open.
pub fn k7(stored: u32) -> Vec<Event> {
    vec![copy_part(0, 0, 3, 4), store(GLOBAL, stored, &[7])]
}

/// An add of u32, and then this operation of u32, to one place in one group.
pub fn k8(second: u8) -> Vec<Event> {
    let add = reduction(0, 0, 16, ADD, U32);
    vec![add, reduction(0, 16, 16, second, U32), bulk_commit()]
}

pub fn k9() -> Vec<Event> {
    let add = reduction(0, 0, 16, ADD, U32);
    vec![add, wait_all(), load(GLOBAL, 4, 4)]
}
