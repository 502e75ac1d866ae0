//! Stores, copies and bulk copies: which bytes go where.

use super::bytes::*;
use super::{accepted_run, RunRow};
use crate::answers::*;

pub fn runs() -> Vec<RunRow> {
    [
        stores(),
        at_the_end(),
        source_and_store(),
        zero_fill(),
        zero_fill_alone(),
        bulk_copies(),
        both_chains(),
        every_kind(),
    ]
    .concat()
}

fn stores() -> Vec<RunRow> {
    let stored = parts(&[vec![1, 2, 3, 4, 1, 2, 3, 4], count(9, 8)]);
    let shared = parts(&[vec![0x80, 0x81, 1, 2], count(0x84, 12)]);
    vec![accepted_run(
        "a later store goes over an earlier one, each in its memory",
        "run_three_stores",
        bytes(vec![], all(0x11, 16), count(0x80, 16)),
        accepted(3, 0),
        bytes(vec![], stored, shared),
    )]
}

/// Operations still open at the end act then.
fn at_the_end() -> Vec<RunRow> {
    let copied = || vec![0x18, 0x19, 0x1a, 0x1b];
    vec![
        accepted_run(
            "a copy still open acts at the end",
            "run_copy_open_at_the_end",
            bytes(all(0xaa, 4), count(0x10, 16), count(0x80, 16)),
            accepted(2, 1),
            bytes(
                vec![0x88, 0x89, 0x8a, 0x8b],
                count(0x10, 16),
                parts(&[count(0x80, 4), copied(), count(0x88, 8)]),
            ),
        ),
        accepted_run(
            "a bulk copy still open acts at the end",
            "kind_32_bulk_copy",
            bytes(vec![], count(0x10, 16), count(0x80, 16)),
            accepted(1, 1),
            bytes(vec![], count(0x80, 16), count(0x80, 16)),
        ),
        accepted_run(
            "a reduction still open acts at the end",
            "kind_33_bulk_reduction",
            bytes(vec![], elements([1, 2, 3, 4]), elements([10, 20, 30, 40])),
            accepted(1, 1),
            bytes(vec![], elements([11, 22, 33, 44]), elements([10, 20, 30, 40])),
        ),
    ]
}

/// A copy of global 8 to 11 to shared 4 to 7, and the thread around it.
fn source_and_store() -> Vec<RunRow> {
    let lent = |length| bytes(all(0xaa, length), count(0x10, 16), count(0x80, 16));
    let old = || vec![0x18, 0x19, 0x1a, 0x1b];
    let stored = || parts(&[count(0x10, 8), vec![1, 2, 3, 4], count(0x1c, 4)]);
    let shared = |copied| parts(&[count(0x80, 4), copied, count(0x88, 8)]);
    vec![
        accepted_run(
            "a load before the copy has the old bytes, one after the wait the new",
            "run_load_before_and_after_a_copy",
            lent(8),
            accepted(4, 1),
            bytes(parts(&[count(0x84, 4), old()]), count(0x10, 16), shared(old())),
        ),
        accepted_run(
            "a store before the copy starts is seen by it",
            "run_source_stored_before_a_copy",
            lent(4),
            accepted(4, 1),
            bytes(vec![1, 2, 3, 4], stored(), shared(vec![1, 2, 3, 4])),
        ),
        accepted_run(
            "a store after the wait is not",
            "run_source_stored_after_a_copy",
            lent(4),
            accepted(4, 1),
            bytes(old(), stored(), shared(old())),
        ),
    ]
}

/// Modes 1 and 2: the bytes not read are zero.
fn zero_fill() -> Vec<RunRow> {
    let filled = parts(&[vec![0x10, 0, 0, 0], all(0, 4), count(0x10, 7), vec![0]]);
    let half = || parts(&[count(0x80, 8), all(0, 8)]);
    vec![
        accepted_run(
            "mode 1 with src-size 1 of 4, 0 of 4 and 7 of 8",
            "run_three_fills",
            bytes(vec![], count(0x10, 16), count(0x80, 16)),
            accepted(3, 3),
            bytes(vec![], count(0x10, 16), filled),
        ),
        accepted_run(
            "mode 2: all zero, and loaded so",
            "run_ignored_then_load",
            bytes(all(0xaa, 16), count(0x10, 16), count(0x80, 16)),
            accepted(3, 1),
            bytes(half(), count(0x10, 16), half()),
        ),
        accepted_run(
            "mode 1 with src-size equal to cp-size is a plain copy",
            "src_size_4_of_4",
            bytes(vec![], count(0x10, 16), count(0x80, 16)),
            accepted(1, 1),
            bytes(vec![], count(0x10, 16), parts(&[count(0x10, 4), count(0x84, 12)])),
        ),
    ]
}

/// The source lies outside the memory as far as it is not read.
fn zero_fill_alone() -> Vec<RunRow> {
    let ignored_and_stored = parts(&[vec![1, 2, 3, 4], count(0x14, 12)]);
    vec![
        accepted_run(
            "one byte read of a memory of one byte",
            "copy_given_1_of_16_src_at_0_of_1",
            bytes(vec![], vec![0x77], count(0x80, 16)),
            accepted(1, 1),
            bytes(vec![], vec![0x77], parts(&[vec![0x77], all(0, 15)])),
        ),
        accepted_run(
            "an ignored source far outside",
            "copy_ignored_src_at_4294967280",
            bytes(vec![], vec![], count(0x80, 16)),
            accepted(1, 1),
            bytes(vec![], vec![], all(0, 16)),
        ),
        accepted_run(
            "an ignored source is not read, so what is stored there does not matter",
            "ignored_store_to_its_source",
            bytes(vec![], count(0x10, 16), count(0x80, 16)),
            accepted(2, 1),
            bytes(vec![], ignored_and_stored, parts(&[all(0, 4), count(0x84, 12)])),
        ),
    ]
}

fn bulk_copies() -> Vec<RunRow> {
    let through = parts(&[count(0x10, 16), count(0x10, 16)]);
    vec![
        accepted_run(
            "a bulk copy of all",
            "run_bulk_copy_of_32",
            bytes(vec![], count(0x10, 32), count(0x80, 32)),
            accepted(1, 1),
            bytes(vec![], count(0x80, 32), count(0x80, 32)),
        ),
        accepted_run(
            "a copy, and after its wait a bulk copy of what it moved",
            "run_copy_then_bulk_copy_of_it",
            bytes(all(0xaa, 8), count(0x10, 32), count(0x80, 32)),
            accepted(7, 1),
            bytes(count(0x10, 8), through, parts(&[count(0x80, 16), count(0x10, 16)])),
        ),
    ]
}

fn both_chains() -> Vec<RunRow> {
    let global = parts(&[count(0x10, 16), count(0x90, 16)]);
    let shared = parts(&[count(0x10, 16), count(0x90, 16)]);
    let source = || parts(&[elements([1, 2, 3, 4]), elements([10, 20, 30, 40])]);
    let sums = parts(&[elements([11, 22, 33, 44]), count(0x20, 16)]);
    vec![
        accepted_run(
            "a copy and a bulk copy both act at the end",
            "run_both_chains_open_at_the_end",
            bytes(all(0xaa, 2), count(0x10, 32), count(0x80, 32)),
            accepted(3, 2),
            bytes(vec![0x10, 0x11], global, shared),
        ),
        accepted_run(
            "an add after the bulk wait adds to what the bulk copy moved",
            "run_add_after_a_bulk_copy",
            bytes(vec![], count(0x10, 32), source()),
            accepted(4, 1),
            bytes(vec![], sums, source()),
        ),
    ]
}

/// The store puts 1, 2, 3, 4 in global, the copy takes them to shared, the bulk
/// copy brings all of shared to global, and the add doubles each element.
fn every_kind() -> Vec<RunRow> {
    let before = elements([0x0909_0909, 5, 6, 7]);
    let shared = elements([0x0403_0201, 5, 6, 7]);
    vec![accepted_run(
        "every kind in one file",
        "every_kind_in_one_file",
        bytes(all(0xaa, 4), count(0x10, 16), before),
        accepted(10, 1),
        bytes(vec![1, 2, 3, 4], elements([0x0806_0402, 10, 12, 14]), shared),
    )]
}
