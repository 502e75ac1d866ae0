//! Trace files that are in the table for their runs.

use crate::answers::*;
use crate::events::*;
use crate::file::{memories, OF_16};
use crate::row::Row;

pub fn rows() -> Vec<Row> {
    [thread(), copies(), both_chains(), loads(), reductions()].concat()
}

fn thread() -> Vec<Row> {
    let stores = [store_global(0, 16), store_global(4, 4), store_shared(2, 2)];
    let store_then_loads = [store_shared(4, 4), load_shared(2, 2), load_shared(0, 8)];
    let over_two_copies = [copy(0, 0, 4), copy(4, 4, 4), WAIT_ALL, load_shared(0, 8)];
    OF_16.rows(&[
        ("run_three_stores", &stores, accepted(3, 0)),
        ("run_store_then_loads", &store_then_loads, accepted(3, 0)),
        ("run_load_over_two_copies", &over_two_copies, accepted(4, 2)),
    ])
}

fn copies() -> Vec<Row> {
    let copied = copy(4, 8, 4);
    let load = load_shared(4, 4);
    let around = [load, copied, WAIT_ALL, load];
    let source_stored_before = [store_global(8, 4), copied, WAIT_ALL, load];
    let source_stored_after = [copied, WAIT_ALL, store_global(8, 4), load];
    let fills = [copy_given(0, 0, 4, 1), copy_given(4, 0, 4, 0), copy_given(8, 0, 8, 7)];
    let ignored_then_load = [copy_ignored(8, 0, 8), WAIT_ALL, load_shared(0, 16)];
    OF_16.rows(&[
        ("run_load_before_and_after_a_copy", &around, accepted(4, 1)),
        ("run_source_stored_before_a_copy", &source_stored_before, accepted(4, 1)),
        ("run_source_stored_after_a_copy", &source_stored_after, accepted(4, 1)),
        ("run_copy_open_at_the_end", &[copied, load_shared(8, 4)], accepted(2, 1)),
        ("run_three_fills", &fills, accepted(3, 3)),
        ("run_ignored_then_load", &ignored_then_load, accepted(3, 1)),
    ])
}

/// Global 0 to shared 16, and shared 16 to global 16.
fn both_chains() -> Vec<Row> {
    let through = [
        copy(16, 0, 16),
        COMMIT,
        wait(0),
        bulk_copy(16, 16, 16),
        BULK_COMMIT,
        bulk_wait(0),
        load_global(16, 8),
    ];
    let open = [copy(0, 0, 16), bulk_copy(16, 16, 16), load_global(0, 2)];
    let add_after_bulk_copy =
        [bulk_copy(0, 0, 16), BULK_COMMIT, bulk_wait(0), reduction(ADD_U32, 0, 16, 16)];
    memories(32, 32).rows(&[
        ("run_copy_then_bulk_copy_of_it", &through, accepted(7, 1)),
        ("run_both_chains_open_at_the_end", &open, accepted(3, 2)),
        ("run_add_after_a_bulk_copy", &add_after_bulk_copy, accepted(4, 1)),
        ("run_bulk_copy_of_32", &[bulk_copy(0, 0, 32)], accepted(1, 1)),
    ])
}

fn loads() -> Vec<Row> {
    let all_sizes = [
        load_global(1, 1),
        load_shared(2, 2),
        load_global(4, 4),
        load_shared(8, 8),
        load_global(0, 16),
    ];
    let load_stores_then_clash = [
        load_global(0, 4),
        store_global(8, 4),
        store_shared(8, 4),
        copy(0, 0, 4),
        load_shared(0, 4),
    ];
    OF_16.rows(&[
        ("run_loads_of_all_sizes", &all_sizes, accepted(5, 0)),
        ("run_two_loads_of_4", &[load_global(0, 4), load_shared(0, 4)], accepted(2, 0)),
        ("run_load_stores_then_clash", &load_stores_then_clash, clash(4, 3)),
        ("run_load_then_range", &[load_global(0, 4), load_shared(16, 4)], range(1)),
    ])
}

fn reductions() -> Vec<Row> {
    let add = reduction(ADD_U32, 0, 0, 16);
    let twice = |pair| [reduction(pair, 0, 0, 16), reduction(pair, 0, 16, 16)];
    let closed = [add, BULK_COMMIT, bulk_wait(0), store_shared(0, 16), load_global(0, 4)];
    memories(32, 32).rows(&[
        ("run_add_then_store_to_its_source", &closed, accepted(5, 1)),
        ("run_two_xors", &twice(XOR_B32), accepted(2, 2)),
        ("run_two_mins_s32", &twice(MIN_S32), accepted(2, 2)),
        ("run_add_inside_a_memory", &[reduction(ADD_S32, 16, 0, 16)], accepted(1, 1)),
    ])
}
