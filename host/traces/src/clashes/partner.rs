//! Code 10 names the first event that clashes with an earlier one, over the
//! list up to that event; partner is the lowest such earlier event.

use crate::answers::*;
use crate::events::*;
use crate::file::{memories, OF_16};
use crate::row::Row;

pub fn rows() -> Vec<Row> {
    [lowest(), lowest_of_both_ends(), first_event()].concat()
}

fn lowest() -> Vec<Row> {
    let low = copy(0, 0, 4);
    let high = copy(4, 0, 4);
    let load = load_shared(0, 8);
    let first_closed = [low, COMMIT, high, COMMIT, wait(1), load];
    OF_16.rows(&[
        ("partner_of_a_load_over_two_copies", &[low, high, load], clash(2, 0)),
        ("partner_is_not_the_lowest_address", &[high, low, load], clash(2, 0)),
        ("partner_is_the_one_that_shares_a_byte", &[low, high, load_shared(4, 4)], clash(2, 1)),
        ("partner_is_the_one_still_open", &first_closed, clash(5, 2)),
        ("partner_past_a_load_and_a_store", &[load, store_shared(0, 4), low, load], clash(3, 2)),
    ])
}

/// The destination clashes with one operation, the source with another.
fn lowest_of_both_ends() -> Vec<Row> {
    let writes_shared_0 = copy(0, 0, 16);
    let writes_global_32 = bulk_copy(32, 32, 16);
    let meets_both = bulk_copy(32, 0, 16);
    let source_first = [writes_shared_0, writes_global_32, meets_both];
    let destination_first = [writes_global_32, writes_shared_0, meets_both];
    memories(48, 48).rows(&[
        ("partner_through_the_source", &source_first, clash(2, 0)),
        ("partner_through_the_destination", &destination_first, clash(2, 0)),
    ])
}

fn first_event() -> Vec<Row> {
    let open = copy(0, 0, 4);
    let load = load_shared(0, 4);
    let beside = load_shared(4, 4);
    OF_16.rows(&[
        ("first_of_two_clashing_loads", &[open, beside, load, load], clash(2, 0)),
        ("clash_before_the_wait_that_closes", &[open, load, WAIT_ALL], clash(1, 0)),
        ("first_clash_is_with_the_later_copy", &[open, copy(4, 0, 4), beside, load], clash(2, 1)),
    ])
}
