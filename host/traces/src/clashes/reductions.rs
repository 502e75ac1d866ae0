//! Two open reductions: those of one operation and one type may share bytes.

use crate::answers::*;
use crate::events::*;
use crate::file::{memories, Memories};
use crate::row::Row;
use second::trace::Event;

const OF_48: Memories = memories(48, 48);

pub fn rows() -> Vec<Row> {
    [each_pair_twice(), other_operation(), other_type(), places(), with_others()].concat()
}

/// Each of the nine pairs twice in one place.
fn each_pair_twice() -> Vec<Row> {
    let twice = |dst, pair| [reduction(pair, dst, 0, 16), reduction(pair, dst, 0, 16)];
    let events = [
        twice(0, AND_B32),
        twice(16, OR_B32),
        twice(32, XOR_B32),
        twice(48, ADD_U32),
        twice(64, ADD_S32),
        twice(80, MIN_U32),
        twice(96, MIN_S32),
        twice(112, MAX_U32),
        twice(128, MAX_S32),
    ]
    .concat();
    memories(144, 16).rows(&[("each_pair_twice_in_one_place", &events, accepted(18, 18))])
}

/// The first and then the second, into one place.
fn both(first: Pair, second: Pair) -> [Event; 2] {
    [reduction(first, 0, 0, 16), reduction(second, 0, 16, 16)]
}

fn other_operation() -> Vec<Row> {
    OF_48.rows(&[
        ("and_then_or", &both(AND_B32, OR_B32), clash(1, 0)),
        ("add_then_min_u32", &both(ADD_U32, MIN_U32), clash(1, 0)),
        ("min_then_max_u32", &both(MIN_U32, MAX_U32), clash(1, 0)),
        ("max_then_min_s32", &both(MAX_S32, MIN_S32), clash(1, 0)),
    ])
}

fn other_type() -> Vec<Row> {
    OF_48.rows(&[
        ("add_u32_then_add_s32", &both(ADD_U32, ADD_S32), clash(1, 0)),
        ("add_s32_then_add_u32", &both(ADD_S32, ADD_U32), clash(1, 0)),
        ("min_u32_then_min_s32", &both(MIN_U32, MIN_S32), clash(1, 0)),
        ("max_s32_then_max_u32", &both(MAX_S32, MAX_U32), clash(1, 0)),
    ])
}

fn places() -> Vec<Row> {
    let wide = reduction(ADD_U32, 0, 0, 32);
    let max = |dst| reduction(MAX_U32, dst, 32, 16);
    let add = reduction(ADD_U32, 16, 32, 16);
    let closed = [wide, BULK_COMMIT, bulk_wait(0), max(16)];
    OF_48.rows(&[
        ("add_then_max_into_its_end", &[wide, max(16)], clash(1, 0)),
        ("add_then_max_after_its_end", &[wide, max(32)], accepted(2, 2)),
        ("add_then_add_into_its_end", &[wide, add], accepted(2, 2)),
        ("add_closed_then_max", &closed, accepted(4, 1)),
    ])
}

/// That two reductions may share bytes does not let a third or a load in.
fn with_others() -> Vec<Row> {
    let add = |dst, size| reduction(ADD_U32, dst, 0, size);
    let max = |dst| reduction(MAX_U32, dst, 0, 16);
    let load = load_global(0, 4);
    let groups = [add(0, 16), BULK_COMMIT, add(0, 16), BULK_COMMIT, bulk_wait(1), load];
    OF_48.rows(&[
        ("add_add_max", &[add(0, 16), add(0, 16), max(0)], clash(2, 0)),
        ("add_max_beside_add_over_both", &[add(0, 16), max(16), add(0, 32)], clash(2, 1)),
        ("add_add_load", &[add(0, 16), add(0, 16), load], clash(2, 0)),
        ("add_add_bulk_wait_1_load", &groups, clash(5, 2)),
    ])
}
