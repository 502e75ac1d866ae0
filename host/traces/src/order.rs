//! The order of checks: events in order, each checked 5 to 10; the first that
//! applies is the answer.

use crate::answers::*;
use crate::events::*;
use crate::file::{memories, rows as table, File, OF_16};
use crate::row::{row, Row};
use second::Answer;

pub fn rows() -> Vec<Row> {
    [
        kind_and_body_first(),
        field_before_alignment(),
        before_a_clash(),
        range_before_clash(),
        clash_then_faults(),
        faults_then_clash(),
        two_faults(),
    ]
    .concat()
}

/// A body of the wrong length has no fields to look at.
fn kind_and_body_first() -> Vec<Row> {
    let load = OF_16.file(&[load_shared(0, 3)]);
    let space_2 = load.clone().with_body_byte(0, 0, 2);
    table(vec![
        ("unknown_kind_body_1", load.with_kind(0, 3).with_body_length(0, 1), unknown_kind(0)),
        ("body_9_and_space_2", space_2.with_body_length(0, 9), body_length(0)),
    ])
}

fn field_before_alignment() -> Vec<Row> {
    let mode_3_at_2 = OF_16.file(&[copy(2, 2, 4)]).with_body_byte(0, 13, 3);
    table(vec![
        ("load_size_3_at_1", OF_16.file(&[load_shared(1, 3)]), field(0)),
        ("copy_mode_3_at_2", mode_3_at_2, field(0)),
        ("bulk_size_24_at_8", OF_16.file(&[bulk_copy(8, 8, 24)]), field(0)),
    ])
}

/// The second event shares a byte with the open copy, and has another fault.
fn before_a_clash() -> Vec<Row> {
    let with = |event| OF_16.file(&[copy(0, 0, 4), event]);
    let load = with(load_shared(0, 4));
    table(vec![
        ("clash_or_unknown_kind", load.clone().with_kind(1, 3), unknown_kind(1)),
        ("clash_or_body_length", load.with_body_length(1, 9), body_length(1)),
        ("clash_or_field", with(load_shared(0, 3)), field(1)),
        ("clash_or_alignment", with(load_shared(2, 4)), alignment(1)),
    ])
}

/// Out of range at one end, and a clash in range at the same end or the other.
fn range_before_clash() -> Vec<Row> {
    let same_end = [copy(8, 0, 4), load_shared(8, 8)];
    let other_end = [bulk_copy(0, 0, 16), copy(16, 0, 16)];
    [
        memories(16, 12).rows(&[("clash_or_range", &same_end, range(1))]),
        OF_16.rows(&[("clash_or_range_at_the_other_end", &other_end, range(1))]),
    ]
    .concat()
}

/// Files with a fault of each of 5 to 9. `file_with` writes a load of this
/// address and size as event `fault`; an edit or the numbers make it faulty.
fn faults(fault: u16, file_with: fn(u32, u8) -> File) -> Vec<(&'static str, File, Answer)> {
    let event = usize::from(fault);
    vec![
        ("unknown_kind", file_with(8, 4).with_kind(event, 3), unknown_kind(fault)),
        ("body_length", file_with(8, 4).with_body_length(event, 9), body_length(fault)),
        ("field", file_with(8, 3), field(fault)),
        ("alignment", file_with(9, 4), alignment(fault)),
        ("range", file_with(16, 4), range(fault)),
    ]
}

fn clash_then_faults() -> Vec<Row> {
    let file_with: fn(u32, u8) -> File =
        |address, size| OF_16.file(&[copy(0, 0, 4), load_shared(0, 4), load_shared(address, size)]);
    let clash_first = |(name, file, _): (&str, File, Answer)| {
        row(&format!("clash_then_{name}"), file, clash(1, 0))
    };
    faults(2, file_with).into_iter().map(clash_first).collect()
}

fn faults_then_clash() -> Vec<Row> {
    let file_with: fn(u32, u8) -> File =
        |address, size| OF_16.file(&[copy(0, 0, 4), load_shared(address, size), load_shared(0, 4)]);
    let fault_first = |(name, file, answer): (&str, File, Answer)| {
        row(&format!("{name}_then_clash"), file, answer)
    };
    faults(1, file_with).into_iter().map(fault_first).collect()
}

/// A later event has a fault with a lower code.
fn two_faults() -> Vec<Row> {
    let then_unknown = |event| OF_16.file(&[event, COMMIT]).with_kind(1, 3);
    let body = then_unknown(wait(0)).with_body_length(0, 5);
    table(vec![
        ("body_length_then_unknown_kind", body, body_length(0)),
        ("field_then_unknown_kind", then_unknown(bulk_copy(0, 0, 24)), field(0)),
        ("range_then_unknown_kind", then_unknown(load_shared(16, 1)), range(0)),
    ])
}
