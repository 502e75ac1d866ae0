//! Up to 1,024 events, and one more.

use crate::answers::*;
use crate::events::*;
use crate::file::{memories, rows as table, OF_16};
use crate::row::Row;
use second::trace::Event;

pub fn rows() -> Vec<Row> {
    [counts(), open_copies(), groups(), empty_groups()].concat()
}

fn counts() -> Vec<Row> {
    let commits = |count| OF_16.file(&vec![COMMIT; count]);
    table(vec![
        ("events_256", commits(256), accepted(256, 0)),
        ("events_1024", commits(1_024), accepted(1_024, 0)),
        ("events_1025", commits(1_025), TOO_MANY),
        ("events_1024_the_last_unknown", commits(1_024).with_kind(1_023, 3), unknown_kind(1_023)),
        ("events_1024_the_last_entry_byte", commits(1_024).with_entry_zero(1_023, 1), SHAPE),
    ])
}

/// Copies of 4 bytes, one beside the other, all open.
fn open_copies() -> Vec<Row> {
    let copies = |count: u32| -> Vec<Event> { (0..count).map(|i| copy(4 * i, 0, 4)).collect() };
    let then = |event| [copies(1_023), vec![event]].concat();
    memories(4, 4_096).rows(&[
        ("copies_1024_all_open", &copies(1_024), accepted(1_024, 1_024)),
        ("copies_1023_then_load_of_the_last", &then(load_shared(4_088, 4)), clash(1_023, 1_022)),
    ])
}

/// 511 copies with a commit after each, a wait, and a load.
fn groups() -> Vec<Row> {
    let copies: Vec<Event> = (0..511).flat_map(|i| [copy(4 * i, 0, 4), COMMIT]).collect();
    let then = |n, address| [copies.clone(), vec![wait(n), load_shared(address, 4)]].concat();
    memories(4, 2_044).rows(&[
        ("groups_511_wait_510_load_of_the_first", &then(510, 0), accepted(1_024, 511)),
        ("groups_511_wait_510_load_of_the_second", &then(510, 4), clash(1_023, 2)),
        ("groups_511_wait_256_load_of_the_256th", &then(256, 1_020), clash(1_023, 510)),
    ])
}

/// A copy and 1,021 groups, all but the first empty.
fn empty_groups() -> Vec<Row> {
    let then_wait = |n| -> Vec<Event> {
        let commits = vec![COMMIT; 1_021];
        [vec![copy(0, 0, 4)], commits, vec![wait(n), load_shared(0, 4)]].concat()
    };
    OF_16.rows(&[
        ("groups_1021_wait_1020", &then_wait(1_020), accepted(1_024, 1)),
        ("groups_1021_wait_1021", &then_wait(1_021), clash(1_023, 0)),
    ])
}
