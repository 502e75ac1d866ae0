//! An open copy and an open bulk operation: the copy writes shared and reads
//! global, the bulk operation reads shared and writes global.

use crate::answers::*;
use crate::events::*;
use crate::file::{memories, Memories};
use crate::row::Row;

const OF_32: Memories = memories(32, 32);

pub fn rows() -> Vec<Row> {
    [copy_then_bulk_copy(), bulk_copy_then_copy(), sources_read(), reductions()].concat()
}

fn copy_then_bulk_copy() -> Vec<Row> {
    let open = copy(0, 0, 16);
    OF_32.rows(&[
        ("copy_then_bulk_copy_of_its_dst", &[open, bulk_copy(16, 0, 16)], clash(1, 0)),
        ("copy_then_bulk_copy_to_its_src", &[open, bulk_copy(0, 16, 16)], clash(1, 0)),
        ("copy_then_bulk_copy_beside", &[open, bulk_copy(16, 16, 16)], accepted(2, 2)),
    ])
}

fn bulk_copy_then_copy() -> Vec<Row> {
    let open = bulk_copy(0, 0, 16);
    OF_32.rows(&[
        ("bulk_copy_then_copy_of_its_dst", &[open, copy(16, 0, 16)], clash(1, 0)),
        ("bulk_copy_then_copy_to_its_src", &[open, copy(0, 16, 16)], clash(1, 0)),
        ("bulk_copy_then_copy_beside", &[open, copy(16, 16, 16)], accepted(2, 2)),
        ("bulk_copy_then_copy_of_its_last_bytes", &[open, copy(16, 12, 4)], clash(1, 0)),
    ])
}

/// Only the bytes that the copy reads count.
fn sources_read() -> Vec<Row> {
    let open = bulk_copy(0, 0, 16);
    let none = copy_given(16, 0, 16, 0);
    OF_32.rows(&[
        ("bulk_copy_then_copy_given_1_of_its_dst", &[open, copy_given(16, 0, 16, 1)], clash(1, 0)),
        ("bulk_copy_then_copy_given_0_of_its_dst", &[open, none], accepted(2, 2)),
        ("bulk_copy_then_copy_ignoring_its_dst", &[open, copy_ignored(16, 0, 16)], accepted(2, 2)),
        ("copy_given_0_then_bulk_copy_to_its_src", &[none, bulk_copy(0, 0, 16)], accepted(2, 2)),
    ])
}

fn reductions() -> Vec<Row> {
    let open = reduction(ADD_U32, 0, 0, 16);
    let copied = copy(0, 0, 16);
    OF_32.rows(&[
        ("reduction_then_copy_of_its_dst", &[open, copy(16, 0, 16)], clash(1, 0)),
        ("reduction_then_copy_to_its_src", &[open, copy(0, 16, 16)], clash(1, 0)),
        ("copy_then_reduction_of_its_dst", &[copied, reduction(ADD_U32, 16, 0, 16)], clash(1, 0)),
        ("copy_then_reduction_to_its_src", &[copied, reduction(ADD_U32, 0, 16, 16)], clash(1, 0)),
        ("copy_then_reduction_beside", &[copied, reduction(ADD_U32, 16, 16, 16)], accepted(2, 2)),
    ])
}
