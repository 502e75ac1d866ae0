//! Peak: the largest number of operations open after any event.

use crate::answers::*;
use crate::events::*;
use crate::file::{memories, OF_16};
use crate::row::Row;

pub fn rows() -> Vec<Row> {
    [copies(), groups(), both_chains(), shared_place()].concat()
}

fn copies() -> Vec<Row> {
    let to = |dst| copy(dst, 0, 4);
    let rises_late = [to(0), WAIT_ALL, to(0), to(4), to(8)];
    let falls = [to(0), to(4), to(8), WAIT_ALL, to(0), to(4)];
    let one_by_one = [to(0), WAIT_ALL, to(0), WAIT_ALL, to(0), WAIT_ALL];
    OF_16.rows(&[
        (
            "peak_0_thread_and_waits",
            &[load_shared(0, 4), COMMIT, wait(0), WAIT_ALL],
            accepted(4, 0),
        ),
        ("peak_4_all_open", &[to(0), to(4), to(8), to(12)], accepted(4, 4)),
        ("peak_3_after_the_last_event", &rises_late, accepted(5, 3)),
        ("peak_3_before_the_wait", &falls, accepted(6, 3)),
        ("peak_1_one_by_one", &one_by_one, accepted(6, 1)),
    ])
}

/// A wait 1 after each group but the first: two are open before it, one after.
fn groups() -> Vec<Row> {
    let to = |dst| copy(dst, 0, 4);
    let kept_at_two = [to(0), COMMIT, to(4), COMMIT, wait(1), to(8), COMMIT, wait(1), to(12)];
    let no_wait_closes = [to(0), wait(0), to(4), wait(0), to(8), COMMIT, wait(0), to(0)];
    OF_16.rows(&[
        ("peak_2_of_four_copies", &kept_at_two, accepted(9, 2)),
        ("peak_3_waits_before_the_commit", &no_wait_closes, accepted(8, 3)),
    ])
}

/// The operations of both chains count together.
fn both_chains() -> Vec<Row> {
    let copied = copy(0, 0, 16);
    let bulk = bulk_copy(16, 16, 16);
    let add = reduction(ADD_U32, 32, 16, 16);
    let copy_closed = [copied, bulk, WAIT_ALL, add];
    let bulk_closed = [copied, bulk, BULK_COMMIT, bulk_wait(0), copy(32, 0, 16)];
    memories(48, 48).rows(&[
        ("peak_3_copy_bulk_copy_reduction", &[copied, bulk, add], accepted(3, 3)),
        ("peak_2_copy_closed", &copy_closed, accepted(4, 2)),
        ("peak_2_bulk_copy_closed", &bulk_closed, accepted(5, 2)),
    ])
}

/// Reductions that share a place count each.
fn shared_place() -> Vec<Row> {
    let adds = [reduction(ADD_U32, 0, 0, 16); 8];
    OF_16.rows(&[("peak_8_adds_into_one_place", &adds, accepted(8, 8))])
}
