//! The wrong readings seen before: files that tell each from the right one.

use crate::answers::*;
use crate::events::*;
use crate::file::{memories, OF_16};
use crate::row::Row;

pub fn rows() -> Vec<Row> {
    [waits(), bytes(), wrapping()].concat()
}

/// A wait closes only what was committed; empty groups count.
fn waits() -> Vec<Row> {
    let copied = copy(0, 0, 4);
    let load = load_shared(0, 4);
    let bulk = bulk_copy(0, 0, 16);
    let bulk_load = load_global(0, 4);
    let after_empty_group = [COMMIT, copied, wait(0), load];
    let one_empty_group = [copied, COMMIT, COMMIT, wait(1), load];
    let one_empty_bulk_group = [bulk, BULK_COMMIT, BULK_COMMIT, bulk_wait(1), bulk_load];
    OF_16.rows(&[
        ("reading_1_wait_0_of_an_uncommitted_copy", &after_empty_group, clash(3, 1)),
        ("reading_1_bulk_wait_0_uncommitted", &[bulk, bulk_wait(0), bulk_load], clash(2, 0)),
        ("reading_2_an_empty_group_counts", &one_empty_group, accepted(5, 1)),
        ("reading_2_an_empty_bulk_group_counts", &one_empty_bulk_group, accepted(5, 1)),
    ])
}

/// Commit order is not byte order; src-size alone bounds what is read.
fn bytes() -> Vec<Row> {
    let copied = copy(0, 0, 4);
    let bulk = bulk_copy(0, 0, 16);
    let half = copy_given(0, 0, 16, 8);
    let two_bulk_groups = [bulk, BULK_COMMIT, bulk, BULK_COMMIT];
    OF_16.rows(&[
        ("reading_3_two_groups_one_place", &[copied, COMMIT, copied, COMMIT], clash(2, 0)),
        ("reading_3_two_bulk_groups_one_place", &two_bulk_groups, clash(2, 0)),
        ("reading_4_src_size_8_of_16_store_to_8", &[half, store_global(8, 8)], accepted(2, 1)),
        ("reading_4_src_size_8_of_16_store_to_7", &[half, store_global(7, 1)], clash(1, 0)),
    ])
}

/// Address plus size does not wrap back into memory.
fn wrapping() -> Vec<Row> {
    let last = 4_294_967_280;
    memories(64, 64).rows(&[
        ("reading_5_load_16_at_4294967280", &[load_shared(last, 16)], range(0)),
        ("reading_5_copy_16_to_4294967280", &[copy(last, 0, 16)], range(0)),
        ("reading_5_bulk_size_32_to_4294967280", &[bulk_copy(last, 0, 32)], range(0)),
        ("reading_5_bulk_size_4294967280_to_16", &[bulk_copy(16, 0, last)], range(0)),
    ])
}
