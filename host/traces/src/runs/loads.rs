//! Loads are appended to the load record in file order.

use super::bytes::*;
use super::{accepted_run, RunRow};
use crate::answers::*;

pub fn runs() -> Vec<RunRow> {
    [all_sizes(), one_place(), over_writes()].concat()
}

fn all_sizes() -> Vec<RunRow> {
    let with_loads = |loads| bytes(loads, count(0x10, 16), count(0x80, 16));
    let small = || vec![0x11, 0x82, 0x83, 0x14, 0x15, 0x16, 0x17];
    let loaded = || parts(&[small(), count(0x88, 8), count(0x10, 16)]);
    vec![
        accepted_run(
            "loads of all sizes from both memories, 31 bytes",
            "run_loads_of_all_sizes",
            with_loads(all(0xaa, 31)),
            accepted(5, 0),
            with_loads(loaded()),
        ),
        accepted_run(
            "the same, and two bytes past them stay",
            "run_loads_of_all_sizes",
            with_loads(all(0xaa, 33)),
            accepted(5, 0),
            with_loads(parts(&[loaded(), all(0xaa, 2)])),
        ),
    ]
}

fn one_place() -> Vec<RunRow> {
    let with_loads = |loads| bytes(loads, count(0x10, 16), count(0x80, 16));
    let loaded = [1, 2, 4, 8, 16].map(|size| count(0x80, size));
    vec![accepted_run(
        "loads of all sizes at one place",
        "load_shared_sizes_1_2_4_8_16",
        with_loads(all(0xaa, 31)),
        accepted(5, 0),
        with_loads(parts(&loaded)),
    )]
}

fn over_writes() -> Vec<RunRow> {
    let copied = || parts(&[count(0x10, 8), count(0x88, 8)]);
    let stored = || parts(&[count(0x80, 4), vec![1, 2, 3, 4], count(0x88, 8)]);
    let before_and_over = parts(&[vec![0x82, 0x83], count(0x80, 4), vec![1, 2, 3, 4]]);
    vec![
        accepted_run(
            "one load over what two copies moved",
            "run_load_over_two_copies",
            bytes(all(0xaa, 8), count(0x10, 16), count(0x80, 16)),
            accepted(4, 2),
            bytes(count(0x10, 8), count(0x10, 16), copied()),
        ),
        accepted_run(
            "one load before the stored bytes and one over them",
            "run_store_then_loads",
            bytes(all(0xaa, 10), count(0x10, 16), count(0x80, 16)),
            accepted(3, 0),
            bytes(before_and_over, count(0x10, 16), stored()),
        ),
    ]
}
