//! Wait-all is a commit and then wait 0.

use crate::answers::*;
use crate::events::*;
use crate::file::OF_16;
use crate::row::Row;

pub fn rows() -> Vec<Row> {
    let low = copy(0, 0, 4);
    let high = copy(4, 0, 4);
    let load_low = load_shared(0, 4);
    let load_high = load_shared(4, 4);
    let some_committed = [low, COMMIT, high, WAIT_ALL, load_low, load_high];
    let group_after = [low, WAIT_ALL, high, COMMIT, wait(1), load_high];
    OF_16.rows(&[
        ("wait_all_committed_and_uncommitted", &some_committed, accepted(6, 2)),
        ("wait_all_before_the_copy", &[WAIT_ALL, low, load_low], clash(2, 1)),
        ("wait_all_between_two_copies", &[low, WAIT_ALL, high, load_high], clash(3, 2)),
        ("wait_all_then_store_to_the_source", &[low, WAIT_ALL, store_global(0, 4)], accepted(3, 1)),
        ("wait_all_then_the_same_copy", &[low, WAIT_ALL, low], accepted(3, 1)),
        ("wait_1_after_a_wait_all", &group_after, clash(5, 2)),
    ])
}
