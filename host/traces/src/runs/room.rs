//! Code 11: the loads' total bytes and the lent load record.

use super::bytes::*;
use super::{accepted_run, refused_run, RunRow};
use crate::answers::*;

pub fn runs() -> Vec<RunRow> {
    [one_load(), two_loads(), no_loads(), no_room_for_others(), before_it()].concat()
}

/// One load of 4 bytes.
fn one_load() -> Vec<RunRow> {
    let file = "k01_copy_wait_all_load";
    let room = |length| bytes(count(0xa0, length), count(0x10, 16), all(0xee, 16));
    let loaded = || vec![0x10, 0x11, 0x12, 0x13];
    let after = |past_the_load| {
        let loads = parts(&[loaded(), past_the_load]);
        bytes(loads, count(0x10, 16), parts(&[loaded(), all(0xee, 12)]))
    };
    let (one, two) = (vec![0xa4], vec![0xa4, 0xa5]);
    vec![
        refused_run("no room", file, room(0), no_room(3)),
        refused_run("room one byte short", file, room(3), no_room(3)),
        accepted_run("room exactly enough", file, room(4), accepted(3, 1), after(vec![])),
        accepted_run("one byte past the load stays", file, room(5), accepted(3, 1), after(one)),
        accepted_run("two bytes past the load stay", file, room(6), accepted(3, 1), after(two)),
    ]
}

/// Two loads of 4 bytes: the first is not written when the second has no room.
fn two_loads() -> Vec<RunRow> {
    let file = "run_two_loads_of_4";
    let with_loads = |loads| bytes(loads, count(0x10, 16), count(0x80, 16));
    let room = |length| with_loads(count(0xa0, length));
    let exact = vec![0x10, 0x11, 0x12, 0x13, 0x80, 0x81, 0x82, 0x83];
    let longer = parts(&[exact.clone(), vec![0xa8]]);
    vec![
        refused_run("room for the first only", file, room(4), no_room(2)),
        refused_run("room one byte short of both", file, room(7), no_room(2)),
        accepted_run("room for both", file, room(8), accepted(2, 0), with_loads(exact)),
        accepted_run("the byte past both stays", file, room(9), accepted(2, 0), with_loads(longer)),
    ]
}

/// Without loads no room is needed.
fn no_loads() -> Vec<RunRow> {
    let file = "kind_16_copy";
    let shared = || parts(&[vec![0x10, 0x11, 0x12, 0x13], all(0xee, 12)]);
    let lent = |length| bytes(count(0xa0, length), count(0x10, 16), all(0xee, 16));
    let after = |length| bytes(count(0xa0, length), count(0x10, 16), shared());
    vec![
        accepted_run("no load, no room", file, lent(0), accepted(1, 1), after(0)),
        accepted_run("no load, all bytes stay", file, lent(3), accepted(1, 1), after(3)),
    ]
}

/// Nothing that the events would do is done.
fn no_room_for_others() -> Vec<RunRow> {
    let room = |length| bytes(count(0xa0, length), count(0x10, 16), count(0x80, 16));
    vec![
        refused_run("the store is not done", "run_store_then_loads", room(9), no_room(3)),
        refused_run("the copy is not done", "run_copy_open_at_the_end", room(3), no_room(2)),
        refused_run("room 30 of 31", "run_loads_of_all_sizes", room(30), no_room(5)),
    ]
}

/// Events come before 11.
fn before_it() -> Vec<RunRow> {
    let nothing = || bytes(vec![], count(0x10, 16), count(0x80, 16));
    vec![
        refused_run("10 before 11", "k02_load_of_an_open_copy", nothing(), clash(1, 0)),
        refused_run("9 before 11", "run_load_then_range", nothing(), range(1)),
        refused_run("7 before 11", "load_size_3", nothing(), field(0)),
    ]
}
