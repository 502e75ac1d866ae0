//! The document's file and K3 to K10 with bytes.

use super::bytes::*;
use super::{accepted_run, refused_run, RunRow};
use crate::answers::*;

pub fn runs() -> Vec<RunRow> {
    [one_copy(), three_copies(), copies_on_one_place(), source(), reductions(), no_events()]
        .concat()
}

fn one_copy() -> Vec<RunRow> {
    let lent = || bytes(all(0xaa, 4), count(0x10, 16), all(0xee, 16));
    let after = || {
        let shared = parts(&[vec![0x10, 0x11, 0x12, 0x13], all(0xee, 12)]);
        bytes(vec![0x10, 0x11, 0x12, 0x13], count(0x10, 16), shared)
    };
    vec![
        accepted_run(
            "the document's one file in full",
            "k01_copy_wait_all_load",
            lent(),
            accepted(3, 1),
            after(),
        ),
        refused_run("K2 changes nothing", "k02_load_of_an_open_copy", lent(), clash(1, 0)),
        accepted_run(
            "K3 moves and loads the same bytes",
            "k03_copy_commit_wait_0_load",
            lent(),
            accepted(4, 1),
            after(),
        ),
        refused_run("K4 changes nothing", "k04_copy_wait_0_load", lent(), clash(2, 0)),
    ]
}

fn three_copies() -> Vec<RunRow> {
    let lent = || bytes(all(0xaa, 16), count(0, 48), all(0xee, 48));
    let third_refused =
        refused_run("K5: the third is open", "k05_wait_1_load_of_the_third", lent(), clash(7, 4));
    vec![
        accepted_run(
            "K5: the load has the first copy's bytes",
            "k05_wait_1_load_of_the_first",
            lent(),
            accepted(8, 3),
            bytes(count(0, 16), count(0, 48), count(0, 48)),
        ),
        accepted_run(
            "K5: the load has the second copy's bytes, and the third acts at the end",
            "k05_wait_1_load_of_the_second",
            lent(),
            accepted(8, 3),
            bytes(count(16, 16), count(0, 48), count(0, 48)),
        ),
        third_refused,
    ]
}

fn copies_on_one_place() -> Vec<RunRow> {
    vec![accepted_run(
        "K6 with a wait: the second copy's bytes stay",
        "k06_copy_commit_wait_0_copy_to_the_same_place",
        bytes(vec![], count(0x10, 16), all(0xee, 16)),
        accepted(4, 1),
        bytes(vec![], count(0x10, 16), parts(&[vec![0x14, 0x15, 0x16, 0x17], all(0xee, 12)])),
    )]
}

fn source() -> Vec<RunRow> {
    let lent = || bytes(vec![], count(0x10, 16), all(0xee, 16));
    vec![
        accepted_run(
            "K7: three bytes are copied and the fourth is zero, whatever is stored to global 3",
            "k07_src_size_3_store_to_3",
            lent(),
            accepted(2, 1),
            bytes(
                vec![],
                parts(&[vec![0x10, 0x11, 0x12, 0x01], count(0x14, 12)]),
                parts(&[vec![0x10, 0x11, 0x12, 0x00], all(0xee, 12)]),
            ),
        ),
        refused_run("K7 on its other side", "k07_src_size_3_store_to_2", lent(), clash(1, 0)),
    ]
}

fn reductions() -> Vec<RunRow> {
    let first = || elements([2, 1, 0x20, 0x8000_0000]);
    let second = || elements([3, 1, 0x30, 1]);
    let sources = || parts(&[first(), second()]);
    let before = || elements([1, 0xffff_ffff, 0x10, 0x8000_0000]);
    let sums = || elements([6, 1, 0x60, 1]);
    let max_refused = bytes(vec![], before(), sources());
    vec![
        accepted_run(
            "K8: both adds act at the end",
            "k08_two_adds_one_group",
            bytes(vec![], before(), sources()),
            accepted(3, 2),
            bytes(vec![], sums(), sources()),
        ),
        accepted_run(
            "K8: both adds have acted before the load",
            "k08_two_adds_one_group_bulk_wait_0_load",
            bytes(all(0xaa, 16), before(), sources()),
            accepted(5, 2),
            bytes(sums(), sums(), sources()),
        ),
        refused_run("K8 on its other side", "k08_add_then_max", max_refused, clash(1, 0)),
        accepted_run(
            "K9 with a bulk wait: the add has acted before the load",
            "k09_reduction_bulk_commit_bulk_wait_0_load",
            bytes(all(0xaa, 4), elements([5, 6, 7, 8]), elements([10, 20, 30, 40])),
            accepted(4, 1),
            bytes(vec![15, 0, 0, 0], elements([15, 26, 37, 48]), elements([10, 20, 30, 40])),
        ),
    ]
}

fn no_events() -> Vec<RunRow> {
    let lent = || bytes(vec![], count(0x10, 16), all(0xee, 16));
    vec![accepted_run("K10: no event, no change", "k10_no_events", lent(), accepted(0, 0), lent())]
}
