//! Two open bulk operations, at least one of them a bulk copy.

use crate::answers::*;
use crate::events::*;
use crate::file::{memories, Memories};
use crate::row::Row;

const OF_48: Memories = memories(48, 48);

pub fn rows() -> Vec<Row> {
    [bulk_copies(), with_reductions()].concat()
}

fn bulk_copies() -> Vec<Row> {
    let wide = bulk_copy(0, 0, 32);
    OF_48.rows(&[
        ("bulk_copies_to_one_place", &[bulk_copy(0, 0, 16), bulk_copy(0, 16, 16)], clash(1, 0)),
        ("bulk_copy_into_the_end_of_another", &[wide, bulk_copy(16, 32, 16)], clash(1, 0)),
        ("bulk_copy_after_the_end_of_another", &[wide, bulk_copy(32, 32, 16)], accepted(2, 2)),
        (
            "bulk_copies_from_one_source",
            &[bulk_copy(0, 0, 16), bulk_copy(16, 0, 16)],
            accepted(2, 2),
        ),
    ])
}

fn with_reductions() -> Vec<Row> {
    let bulk = bulk_copy(0, 0, 16);
    let add = |dst| reduction(ADD_U32, dst, 16, 16);
    OF_48.rows(&[
        ("bulk_copy_then_reduction_there", &[bulk, add(0)], clash(1, 0)),
        ("bulk_copy_then_reduction_beside", &[bulk, add(16)], accepted(2, 2)),
        ("reduction_then_bulk_copy_there", &[add(0), bulk], clash(1, 0)),
        ("reduction_then_bulk_copy_of_its_src", &[add(0), bulk_copy(16, 16, 16)], accepted(2, 2)),
    ])
}
