//! The shape of a file and the lengths in its header: codes 2, 3 and 4, in the
//! order in which they are checked.

use crate::answers::*;
use crate::events::*;
use crate::file::{memories, rows as table, File, OF_16};
use crate::row::Row;

pub fn rows() -> Vec<Row> {
    [
        file_lengths(),
        reserved_bytes(),
        counts_and_body_lengths(),
        memory_lengths(),
        count_first(),
        shape_before_memories(),
        memories_before_events(),
    ]
    .concat()
}

/// The document's one file in full: 12 bytes of header, 12 of table, and bodies
/// of 16, 0 and 8 bytes.
fn full() -> File {
    OF_16.file(&[copy(0, 0, 4), WAIT_ALL, load_shared(0, 4)])
}

/// A header alone.
fn header() -> File {
    OF_16.file(&[])
}

fn file_lengths() -> Vec<Row> {
    table(vec![
        ("file_of_0_bytes", header().cut_to(0), SHAPE),
        ("file_of_11_bytes", header().cut_to(11), SHAPE),
        ("no_events_one_byte_long", header().one_byte_long(), SHAPE),
        ("one_byte_short", full().one_byte_short(), SHAPE),
        ("one_byte_long", full().one_byte_long(), SHAPE),
        ("cut_inside_the_table", full().cut_to(22), SHAPE),
        ("cut_after_the_table", full().cut_to(24), SHAPE),
    ])
}

fn reserved_bytes() -> Vec<Row> {
    table(vec![
        ("header_byte_2_is_1", full().with_byte(2, 1), SHAPE),
        ("header_byte_3_is_128", full().with_byte(3, 128), SHAPE),
        ("entry_0_zero_byte_is_1", full().with_entry_zero(0, 1), SHAPE),
        ("entry_1_zero_byte_is_128", full().with_entry_zero(1, 128), SHAPE),
        ("entry_2_zero_byte_is_255", full().with_entry_zero(2, 255), SHAPE),
    ])
}

/// The table and the bodies don't match. Swapped, the lengths of copy and load
/// keep their sum: the shape is right, and the copy's body has 8 bytes.
fn counts_and_body_lengths() -> Vec<Row> {
    let two = OF_16.file(&[COMMIT, COMMIT]);
    let sum_of_65536 = two.with_table_length(0, 65_535).with_table_length(1, 1);
    let swapped = full().with_table_length(0, 8).with_table_length(2, 16);
    table(vec![
        ("n_one_more_than_written", full().with_count(4), SHAPE),
        ("n_one_less_than_written", full().with_count(2), SHAPE),
        ("table_length_one_more_than_written", full().with_table_length(2, 9), SHAPE),
        ("table_length_one_less_than_written", full().with_table_length(2, 7), SHAPE),
        ("table_lengths_sum_to_65536", sum_of_65536, SHAPE),
        ("table_lengths_swapped", swapped, body_length(0)),
    ])
}

fn memory_lengths() -> Vec<Row> {
    let of = |global_length, shared_length| memories(global_length, shared_length).file(&[]);
    table(vec![
        ("global_length_65536", of(65_536, 16), accepted(0, 0)),
        ("global_length_65537", of(65_537, 16), MEMORY),
        ("shared_length_65536", of(16, 65_536), accepted(0, 0)),
        ("shared_length_65537", of(16, 65_537), MEMORY),
        ("both_lengths_0", of(0, 0), accepted(0, 0)),
        ("both_lengths_65536", of(65_536, 65_536), accepted(0, 0)),
        ("global_length_131072", of(131_072, 16), MEMORY),
        ("shared_length_4294967295", of(0, 4_294_967_295), MEMORY),
    ])
}

/// Under 12 bytes, then 3, then the other shape faults.
fn count_first() -> Vec<Row> {
    let unknown_kind = memories(65_537, 65_537).file(&[COMMIT]).with_kind(0, 3);
    let other_faults = unknown_kind.with_byte(2, 1).with_entry_zero(0, 1).one_byte_long();
    table(vec![
        ("n_1025_in_11_bytes", header().with_count(1_025).cut_to(11), SHAPE),
        ("n_1025_in_12_bytes", header().with_count(1_025), TOO_MANY),
        ("n_1024_in_12_bytes", header().with_count(1_024), SHAPE),
        ("n_65535_in_12_bytes", header().with_count(65_535), TOO_MANY),
        ("n_1025_and_other_faults", other_faults.with_count(1_025), TOO_MANY),
    ])
}

/// Shape faults come before memory lengths.
fn shape_before_memories() -> Vec<Row> {
    let global_over_long = memories(65_537, 16).file(&[load_shared(0, 4)]);
    let shared_over_long = memories(16, 65_537).file(&[load_shared(0, 4)]);
    let header_byte = global_over_long.clone().with_byte(3, 1);
    let entry_byte = shared_over_long.clone().with_entry_zero(0, 1);
    table(vec![
        ("header_byte_3_and_global_over_long", header_byte, SHAPE),
        ("entry_byte_and_shared_over_long", entry_byte, SHAPE),
        ("one_byte_short_and_global_over_long", global_over_long.one_byte_short(), SHAPE),
        ("one_byte_long_and_shared_over_long", shared_over_long.one_byte_long(), SHAPE),
    ])
}

/// Shape faults and memory lengths come before events.
fn memories_before_events() -> Vec<Row> {
    let global_over_long = memories(65_537, 16);
    let shared_over_long = memories(16, 65_537);
    let kind = global_over_long.file(&[COMMIT]).with_kind(0, 3);
    let body = shared_over_long.file(&[COMMIT]).with_body_length(0, 1);
    let two_events = global_over_long.file(&[copy(0, 0, 4), load_shared(0, 4)]);
    let unknown = OF_16.file(&[COMMIT, COMMIT]).with_kind(0, 3);
    table(vec![
        ("global_over_long_and_an_unknown_kind", kind, MEMORY),
        ("shared_over_long_and_a_body_length", body, MEMORY),
        ("global_over_long_and_a_clash", two_events, MEMORY),
        ("unknown_kind_and_a_later_entry_byte", unknown.clone().with_entry_zero(1, 1), SHAPE),
        ("unknown_kind_and_one_byte_long", unknown.one_byte_long(), SHAPE),
    ])
}
