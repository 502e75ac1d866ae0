//! The thread's accesses beside an open operation's bytes and on them.

use crate::answers::*;
use crate::events::*;
use crate::file::{memories, Memories, OF_16};
use crate::row::Row;

const OF_64: Memories = memories(64, 64);

pub fn rows() -> Vec<Row> {
    [
        copy_destination(),
        copy_source(),
        inside(),
        bulk_copy_destination(),
        bulk_copy_source(),
        reduction_bytes(),
        before_the_start(),
    ]
    .concat()
}

/// A copy to shared 16 to 31. The last access beside it has the same number in
/// the other memory.
fn copy_destination() -> Vec<Row> {
    let open = copy(16, 32, 16);
    let beside = [
        open,
        load_shared(15, 1),
        load_shared(32, 1),
        store_shared(15, 1),
        store_shared(32, 1),
        store_global(16, 16),
    ];
    OF_64.rows(&[
        ("copy_dst_accesses_beside", &beside, accepted(6, 1)),
        ("copy_dst_load_of_the_first_byte", &[open, load_shared(16, 1)], clash(1, 0)),
        ("copy_dst_load_of_the_last_byte", &[open, load_shared(31, 1)], clash(1, 0)),
        ("copy_dst_store_to_the_first_byte", &[open, store_shared(16, 1)], clash(1, 0)),
        ("copy_dst_store_to_the_last_byte", &[open, store_shared(31, 1)], clash(1, 0)),
    ])
}

/// A copy from global 32 to 47.
fn copy_source() -> Vec<Row> {
    let open = copy(16, 32, 16);
    let beside = [open, store_global(31, 1), store_global(48, 1), store_shared(32, 16)];
    OF_64.rows(&[
        ("copy_src_stores_beside", &beside, accepted(4, 1)),
        ("copy_src_load", &[open, load_global(32, 16)], accepted(2, 1)),
        ("copy_src_store_to_the_first_byte", &[open, store_global(32, 1)], clash(1, 0)),
        ("copy_src_store_to_the_last_byte", &[open, store_global(47, 1)], clash(1, 0)),
    ])
}

/// An access wider than the operation.
fn inside() -> Vec<Row> {
    let open = copy(4, 4, 4);
    let around = [open, load_shared(0, 4), load_shared(8, 8)];
    OF_16.rows(&[
        ("copy_dst_inside_a_load", &[open, load_shared(0, 16)], clash(1, 0)),
        ("copy_dst_between_two_loads", &around, accepted(3, 1)),
        ("copy_src_inside_a_store", &[open, store_global(0, 16)], clash(1, 0)),
    ])
}

/// A bulk copy to global 16 to 31.
fn bulk_copy_destination() -> Vec<Row> {
    let open = bulk_copy(16, 32, 16);
    let beside = [open, load_global(15, 1), store_global(32, 1), store_shared(16, 16)];
    OF_64.rows(&[
        ("bulk_copy_dst_accesses_beside", &beside, accepted(4, 1)),
        ("bulk_copy_dst_load_of_the_first_byte", &[open, load_global(16, 1)], clash(1, 0)),
        ("bulk_copy_dst_load_of_the_last_byte", &[open, load_global(31, 1)], clash(1, 0)),
        ("bulk_copy_dst_store", &[open, store_global(16, 16)], clash(1, 0)),
    ])
}

/// A bulk copy from shared 32 to 47.
fn bulk_copy_source() -> Vec<Row> {
    let open = bulk_copy(16, 32, 16);
    let beside = [open, store_shared(31, 1), store_shared(48, 1), store_global(32, 16)];
    OF_64.rows(&[
        ("bulk_copy_src_stores_beside", &beside, accepted(4, 1)),
        ("bulk_copy_src_load", &[open, load_shared(32, 16)], accepted(2, 1)),
        ("bulk_copy_src_store_to_the_first_byte", &[open, store_shared(32, 1)], clash(1, 0)),
        ("bulk_copy_src_store_to_the_last_byte", &[open, store_shared(47, 1)], clash(1, 0)),
    ])
}

/// A reduction into global 16 to 47 from shared 0 to 31.
fn reduction_bytes() -> Vec<Row> {
    let open = reduction(ADD_U32, 16, 0, 32);
    let beside = [open, store_global(15, 1), load_global(48, 1), store_shared(32, 1)];
    OF_64.rows(&[
        ("reduction_accesses_beside", &beside, accepted(4, 1)),
        ("reduction_dst_load_of_the_first_byte", &[open, load_global(16, 1)], clash(1, 0)),
        ("reduction_dst_load_of_the_last_byte", &[open, load_global(47, 1)], clash(1, 0)),
        ("reduction_dst_store", &[open, store_global(32, 4)], clash(1, 0)),
        ("reduction_src_load", &[open, load_shared(0, 16)], accepted(2, 1)),
        ("reduction_src_store_to_the_first_byte", &[open, store_shared(0, 1)], clash(1, 0)),
        ("reduction_src_store_to_the_last_byte", &[open, store_shared(31, 1)], clash(1, 0)),
    ])
}

/// An operation acts after its start, so what the thread did before is ordered.
fn before_the_start() -> Vec<Row> {
    let all = [load_shared(0, 16), store_shared(0, 16), load_global(0, 16), store_global(0, 16)];
    let then = |operation| [all.to_vec(), vec![operation]].concat();
    OF_16.rows(&[
        ("thread_accesses_alone", &all, accepted(4, 0)),
        ("thread_accesses_before_a_copy", &then(copy(0, 0, 16)), accepted(5, 1)),
        ("thread_accesses_before_a_bulk_copy", &then(bulk_copy(0, 0, 16)), accepted(5, 1)),
        ("thread_accesses_before_an_add", &then(reduction(ADD_U32, 0, 0, 16)), accepted(5, 1)),
    ])
}
