//! Each chain has its own groups, commit and wait; neither chain's waits close
//! the other's operations.

use crate::answers::*;
use crate::events::*;
use crate::file::{memories, OF_16};
use crate::row::Row;

pub fn rows() -> Vec<Row> {
    [copies(), bulk_copies(), both_open()].concat()
}

fn copies() -> Vec<Row> {
    let open = copy(0, 0, 4);
    let load = load_shared(0, 4);
    let bulk_group_after = [open, COMMIT, BULK_COMMIT, wait(1), load];
    OF_16.rows(&[
        ("copy_bulk_commit_wait_0", &[open, BULK_COMMIT, wait(0), load], clash(3, 0)),
        ("copy_commit_bulk_wait_0", &[open, COMMIT, bulk_wait(0), load], clash(3, 0)),
        ("copy_commit_bulk_commit_wait_1", &bulk_group_after, clash(4, 0)),
    ])
}

fn bulk_copies() -> Vec<Row> {
    let open = bulk_copy(0, 0, 16);
    let load = load_global(0, 4);
    let group_after = [open, BULK_COMMIT, COMMIT, bulk_wait(1), load];
    OF_16.rows(&[
        ("bulk_copy_commit_bulk_wait_0", &[open, COMMIT, bulk_wait(0), load], clash(3, 0)),
        ("bulk_copy_bulk_commit_wait_0", &[open, BULK_COMMIT, wait(0), load], clash(3, 0)),
        ("bulk_copy_wait_all", &[open, WAIT_ALL, load], clash(2, 0)),
        ("bulk_copy_wait_all_bulk_wait_0", &[open, WAIT_ALL, bulk_wait(0), load], clash(3, 0)),
        ("bulk_copy_bulk_commit_wait_all", &[open, BULK_COMMIT, WAIT_ALL, load], clash(3, 0)),
        ("bulk_copy_bulk_commit_commit_bulk_wait_1", &group_after, clash(4, 0)),
    ])
}

/// A copy to shared 0 and a bulk copy to global 16, both open and committed.
fn both_open() -> Vec<Row> {
    let after =
        |wait, load| [copy(0, 0, 16), bulk_copy(16, 16, 16), COMMIT, BULK_COMMIT, wait, load];
    let load_copy = load_shared(0, 4);
    let load_bulk = load_global(16, 4);
    memories(32, 32).rows(&[
        ("both_chains_wait_0_load_copy", &after(wait(0), load_copy), accepted(6, 2)),
        ("both_chains_wait_0_load_bulk", &after(wait(0), load_bulk), clash(5, 1)),
        ("both_chains_bulk_wait_0_load_copy", &after(bulk_wait(0), load_copy), clash(5, 0)),
        ("both_chains_bulk_wait_0_load_bulk", &after(bulk_wait(0), load_bulk), accepted(6, 2)),
    ])
}
