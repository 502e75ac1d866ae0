//! What an open copy reads in each mode; all its cp-size bytes are written.

use crate::answers::*;
use crate::events::*;
use crate::file::OF_16;
use crate::row::Row;

pub fn rows() -> Vec<Row> {
    [read(), written()].concat()
}

fn read() -> Vec<Row> {
    let none = copy_given(0, 0, 4, 0);
    let one = copy_given(0, 0, 4, 1);
    let all = copy_given(0, 0, 4, 4);
    let ignored = copy_ignored(0, 0, 4);
    OF_16.rows(&[
        ("plain_store_to_its_last_source_byte", &[copy(0, 0, 4), store_global(3, 1)], clash(1, 0)),
        ("given_4_store_to_global_3", &[all, store_global(3, 1)], clash(1, 0)),
        ("given_1_store_to_global_0", &[one, store_global(0, 1)], clash(1, 0)),
        ("given_1_store_to_global_1", &[one, store_global(1, 1)], accepted(2, 1)),
        ("given_0_store_to_its_source", &[none, store_global(0, 4)], accepted(2, 1)),
        ("ignored_store_to_its_source", &[ignored, store_global(0, 4)], accepted(2, 1)),
    ])
}

fn written() -> Vec<Row> {
    let given = |src_size| copy_given(0, 0, 4, src_size);
    OF_16.rows(&[
        ("given_3_load_of_shared_3", &[given(3), load_shared(3, 1)], clash(1, 0)),
        ("given_0_load_of_its_destination", &[given(0), load_shared(0, 4)], clash(1, 0)),
        (
            "ignored_load_of_its_destination",
            &[copy_ignored(0, 0, 4), load_shared(0, 4)],
            clash(1, 0),
        ),
    ])
}
