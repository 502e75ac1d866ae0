//! Kinds and body lengths: each kind by itself, unknown kinds (code 5), and
//! body lengths that are not the kind's (code 6).

use crate::answers::*;
use crate::events::*;
use crate::file::{rows as table, OF_16};
use crate::row::{row, Row};
use second::trace::Event;

pub fn rows() -> Vec<Row> {
    [
        each_kind(),
        every_kind(),
        unknown_kinds(),
        unknown_kinds_with_bodies(),
        one_byte_off(),
        other_body_lengths(),
    ]
    .concat()
}

fn each_kind() -> Vec<Row> {
    OF_16.rows(&[
        ("kind_1_load", &[load_shared(0, 4)], accepted(1, 0)),
        ("kind_2_store", &[store_shared(0, 4)], accepted(1, 0)),
        ("kind_16_copy", &[copy(0, 0, 4)], accepted(1, 1)),
        ("kind_17_commit", &[COMMIT], accepted(1, 0)),
        ("kind_18_wait", &[wait(0)], accepted(1, 0)),
        ("kind_19_wait_all", &[WAIT_ALL], accepted(1, 0)),
        ("kind_32_bulk_copy", &[bulk_copy(0, 0, 16)], accepted(1, 1)),
        ("kind_33_bulk_reduction", &[reduction(ADD_U32, 0, 0, 16)], accepted(1, 1)),
        ("kind_34_bulk_commit", &[BULK_COMMIT], accepted(1, 0)),
        ("kind_35_bulk_wait", &[bulk_wait(0)], accepted(1, 0)),
    ])
}

/// One operation is open at a time: the copy until the wait, the bulk copy
/// until the bulk wait, the reduction to the end.
fn every_kind() -> Vec<Row> {
    let events = [
        store_global(0, 4),
        copy(0, 0, 4),
        COMMIT,
        wait(0),
        load_shared(0, 4),
        WAIT_ALL,
        bulk_copy(0, 0, 16),
        BULK_COMMIT,
        bulk_wait(0),
        reduction(ADD_U32, 0, 0, 16),
    ];
    OF_16.rows(&[("every_kind_in_one_file", &events, accepted(10, 1))])
}

/// The kinds beside each range, and the last.
fn unknown_kinds() -> Vec<Row> {
    let unknown = |kind: u8| {
        let file = OF_16.file(&[COMMIT]).with_kind(0, kind);
        row(&format!("kind_{kind}"), file, unknown_kind(0))
    };
    [0, 3, 15, 20, 31, 36, 255].map(unknown).to_vec()
}

fn unknown_kinds_with_bodies() -> Vec<Row> {
    let load = OF_16.file(&[load_shared(0, 4)]);
    let second = OF_16.file(&[load_shared(0, 4), COMMIT]);
    table(vec![
        ("kind_3_with_the_body_of_a_load", load.with_kind(0, 3), unknown_kind(0)),
        ("kind_36_after_a_load", second.with_kind(1, 36), unknown_kind(1)),
    ])
}

/// One byte less and one byte more than each kind's body; a body of 1 byte for
/// each kind without.
fn one_byte_off() -> Vec<Row> {
    let off = |name: &str, event: Event, lengths: &[u16]| -> Vec<Row> {
        let with_length = |&length: &u16| {
            let file = OF_16.file(&[event]).with_body_length(0, length);
            row(&format!("{name}_with_a_body_of_{length}"), file, body_length(0))
        };
        lengths.iter().map(with_length).collect()
    };
    [
        off("load", load_shared(0, 4), &[7, 9]),
        off("store", store_shared(0, 4), &[23, 25]),
        off("copy", copy(0, 0, 4), &[15, 17]),
        off("commit", COMMIT, &[1]),
        off("wait", wait(0), &[3, 5]),
        off("wait_all", WAIT_ALL, &[1]),
        off("bulk_copy", bulk_copy(0, 0, 16), &[11, 13]),
        off("bulk_reduction", reduction(ADD_U32, 0, 0, 16), &[15, 17]),
        off("bulk_commit", BULK_COMMIT, &[1]),
        off("bulk_wait", bulk_wait(0), &[3, 5]),
    ]
    .concat()
}

/// No body, lengths whose low byte is right, and a later event.
fn other_body_lengths() -> Vec<Row> {
    let load = OF_16.file(&[load_shared(0, 4)]);
    let second = OF_16.file(&[load_shared(0, 4), WAIT_ALL]);
    let commit = OF_16.file(&[COMMIT]);
    table(vec![
        ("load_with_a_body_of_0", load.clone().with_body_length(0, 0), body_length(0)),
        ("load_with_a_body_of_264", load.with_body_length(0, 264), body_length(0)),
        ("commit_with_a_body_of_256", commit.with_body_length(0, 256), body_length(0)),
        ("wait_all_after_a_load_with_a_body_of_4", second.with_body_length(1, 4), body_length(1)),
    ])
}
