//! Two open copies.

use crate::answers::*;
use crate::events::*;
use crate::file::{memories, Memories};
use crate::row::Row;

const OF_32: Memories = memories(32, 32);

pub fn rows() -> Vec<Row> {
    [overlaps(), same_bytes()].concat()
}

fn overlaps() -> Vec<Row> {
    OF_32.rows(&[
        ("copy_into_the_end_of_another", &[copy(0, 0, 16), copy(12, 16, 4)], clash(1, 0)),
        ("copy_after_the_end_of_another", &[copy(0, 0, 16), copy(16, 16, 4)], accepted(2, 2)),
        ("copy_over_all_of_another", &[copy(12, 0, 4), copy(0, 16, 16)], clash(1, 0)),
        ("copy_before_the_start_of_another", &[copy(16, 0, 4), copy(0, 16, 16)], accepted(2, 2)),
        ("copies_from_one_source", &[copy(0, 0, 16), copy(16, 0, 16)], accepted(2, 2)),
        ("copies_with_numbers_crossed", &[copy(0, 16, 16), copy(16, 0, 16)], accepted(2, 2)),
    ])
}

/// That both would write the same bytes does not matter.
fn same_bytes() -> Vec<Row> {
    let zeros = copy_ignored(0, 0, 16);
    OF_32.rows(&[
        ("the_same_copy_twice", &[copy(0, 0, 16), copy(0, 0, 16)], clash(1, 0)),
        ("two_zero_fills_of_one_place", &[zeros, zeros], clash(1, 0)),
        (
            "zero_fill_past_a_src_size",
            &[copy_given(0, 0, 16, 4), copy_ignored(8, 0, 8)],
            clash(1, 0),
        ),
    ])
}
