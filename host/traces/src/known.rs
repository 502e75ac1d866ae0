//! The document's traces K1 to K10, on both sides.

use crate::answers::*;
use crate::events::*;
use crate::file::{memories, OF_16};
use crate::row::Row;

pub fn rows() -> Vec<Row> {
    [
        one_copy(),
        three_copies(),
        two_copies(),
        source(),
        reductions(),
        reduction_and_wait(),
        no_events(),
    ]
    .concat()
}

/// K1 to K4.
fn one_copy() -> Vec<Row> {
    let copied = copy(0, 0, 4);
    let load = load_shared(0, 4);
    let beside = load_shared(4, 4);
    OF_16.rows(&[
        ("k01_copy_wait_all_load", &[copied, WAIT_ALL, load], accepted(3, 1)),
        ("k02_load_of_an_open_copy", &[copied, load], clash(1, 0)),
        ("k02_load_beside_an_open_copy", &[copied, beside], accepted(2, 1)),
        ("k03_copy_commit_wait_0_load", &[copied, COMMIT, wait(0), load], accepted(4, 1)),
        ("k04_copy_wait_0_load", &[copied, wait(0), load], clash(2, 0)),
    ])
}

/// K5.
fn three_copies() -> Vec<Row> {
    let then_load = |address| {
        [
            copy(0, 0, 16),
            COMMIT,
            copy(16, 16, 16),
            COMMIT,
            copy(32, 32, 16),
            COMMIT,
            wait(1),
            load_shared(address, 16),
        ]
    };
    memories(48, 48).rows(&[
        ("k05_wait_1_load_of_the_first", &then_load(0), accepted(8, 3)),
        ("k05_wait_1_load_of_the_second", &then_load(16), accepted(8, 3)),
        ("k05_wait_1_load_of_the_third", &then_load(32), clash(7, 4)),
    ])
}

/// K6.
fn two_copies() -> Vec<Row> {
    let first = copy(0, 0, 4);
    let same_place = copy(0, 4, 4);
    let beside = copy(4, 4, 4);
    let closed = [first, COMMIT, wait(0), same_place];
    OF_16.rows(&[
        ("k06_copy_commit_copy_to_the_same_place", &[first, COMMIT, same_place], clash(2, 0)),
        ("k06_copy_commit_copy_beside", &[first, COMMIT, beside], accepted(3, 2)),
        ("k06_copy_commit_wait_0_copy_to_the_same_place", &closed, accepted(4, 1)),
    ])
}

/// K7.
fn source() -> Vec<Row> {
    let three_of_four = copy_given(0, 0, 4, 3);
    OF_16.rows(&[
        ("k07_src_size_3_store_to_3", &[three_of_four, store_global(3, 1)], accepted(2, 1)),
        ("k07_src_size_3_store_to_2", &[three_of_four, store_global(2, 1)], clash(1, 0)),
    ])
}

/// K8.
fn reductions() -> Vec<Row> {
    let add = reduction(ADD_U32, 0, 0, 16);
    let second_add = reduction(ADD_U32, 0, 16, 16);
    let max = reduction(MAX_U32, 0, 16, 16);
    let load = load_global(0, 16);
    let closed = [add, second_add, BULK_COMMIT, bulk_wait(0), load];
    memories(16, 32).rows(&[
        ("k08_two_adds_one_group", &[add, second_add, BULK_COMMIT], accepted(3, 2)),
        ("k08_two_adds_one_group_bulk_wait_0_load", &closed, accepted(5, 2)),
        ("k08_add_then_max", &[add, max], clash(1, 0)),
    ])
}

/// K9.
fn reduction_and_wait() -> Vec<Row> {
    let add = reduction(ADD_U32, 0, 0, 16);
    let load = load_global(0, 4);
    let closed = [add, BULK_COMMIT, bulk_wait(0), load];
    OF_16.rows(&[
        ("k09_reduction_wait_all_load", &[add, WAIT_ALL, load], clash(2, 0)),
        ("k09_reduction_bulk_commit_bulk_wait_0_load", &closed, accepted(4, 1)),
    ])
}

/// K10.
fn no_events() -> Vec<Row> {
    OF_16.rows(&[("k10_no_events", &[], accepted(0, 0))])
}
