//! Reductions: each element becomes destination combined with source; add wraps
//! at 2^32, s32 compares as two's complement.

use super::bytes::*;
use super::{accepted_run, RunRow};
use crate::answers::*;

pub fn runs() -> Vec<RunRow> {
    [bitwise(), adds(), comparisons(), carries(), several(), several_bits(), places(), groups()]
        .concat()
}

/// One reduction of this file: four elements, and what they become.
fn pair(shows: &'static str, trace: &str, becomes: [u32; 4]) -> RunRow {
    let destination = elements([0xffff_ffff, 0x0000_0001, 0x8000_0000, 0x1234_5678]);
    let source = elements([0x0000_0001, 0xffff_ffff, 0x7fff_ffff, 0x0f0f_0f0f]);
    let shared = parts(&[all(0xee, 16), source]);
    accepted_run(
        shows,
        trace,
        bytes(vec![], destination, shared.clone()),
        accepted(1, 1),
        bytes(vec![], elements(becomes), shared),
    )
}

fn bitwise() -> Vec<RunRow> {
    vec![
        pair("and", "reduction_and_b32", [0x0000_0001, 0x0000_0001, 0x0000_0000, 0x0204_0608]),
        pair("or", "reduction_or_b32", [0xffff_ffff, 0xffff_ffff, 0xffff_ffff, 0x1f3f_5f7f]),
        pair("xor", "reduction_xor_b32", [0xffff_fffe, 0xffff_fffe, 0xffff_ffff, 0x1d3b_5977]),
    ]
}

fn adds() -> Vec<RunRow> {
    let sums = [0x0000_0000, 0x0000_0000, 0xffff_ffff, 0x2143_6587];
    vec![
        pair("u32 add: ffffffff plus 1 is 0", "reduction_add_u32", sums),
        pair("s32 add: ffffffff plus 1 is 0", "reduction_add_s32", sums),
    ]
}

fn comparisons() -> Vec<RunRow> {
    vec![
        pair(
            "u32 min of ffffffff and 1 is 1",
            "reduction_min_u32",
            [0x0000_0001, 0x0000_0001, 0x7fff_ffff, 0x0f0f_0f0f],
        ),
        pair(
            "s32 min of ffffffff and 1 is ffffffff",
            "reduction_min_s32",
            [0xffff_ffff, 0xffff_ffff, 0x8000_0000, 0x0f0f_0f0f],
        ),
        pair(
            "u32 max of ffffffff and 1 is ffffffff",
            "reduction_max_u32",
            [0xffff_ffff, 0xffff_ffff, 0x8000_0000, 0x1234_5678],
        ),
        pair(
            "s32 max of ffffffff and 1 is 1",
            "reduction_max_s32",
            [0x0000_0001, 0x0000_0001, 0x7fff_ffff, 0x1234_5678],
        ),
    ]
}

/// The low byte comes first; a carry goes to the next byte of its element, and
/// never to the next element.
fn carries() -> Vec<RunRow> {
    let source =
        || parts(&[vec![1, 0, 0, 0], vec![0, 0, 0, 1], vec![1, 0, 0, 0], vec![16, 32, 48, 64]]);
    vec![accepted_run(
        "an element has its low byte first",
        "kind_33_bulk_reduction",
        bytes(
            vec![],
            parts(&[vec![255, 0, 0, 0], vec![0, 0, 0, 255], all(255, 4), vec![1, 2, 3, 4]]),
            source(),
        ),
        accepted(1, 1),
        bytes(vec![], parts(&[vec![0, 1, 0, 0], all(0, 8), vec![17, 34, 51, 68]]), source()),
    )]
}

/// Several of one operation and one type into one place, in whatever order.
fn several() -> Vec<RunRow> {
    let one_source = || elements([1, 2, 1, 0x2000_0000]);
    vec![accepted_run(
        "eight adds of one source",
        "peak_8_adds_into_one_place",
        bytes(vec![], elements([0, 1, 0xffff_ffff, 0x8000_0000]), one_source()),
        accepted(8, 8),
        bytes(vec![], elements([8, 17, 7, 0x8000_0000]), one_source()),
    )]
}

fn several_bits() -> Vec<RunRow> {
    let beside = || all(0x55, 16);
    let masks = || {
        let first = elements([0x0000_ffff, 1, 0x1234_5678, 2]);
        parts(&[first, elements([0xffff_0000, 2, 0, 4])])
    };
    let numbers = || {
        let first = elements([3, 0xffff_fffe, 0x8000_0000, 0x7fff_ffff]);
        parts(&[first, elements([4, 1, 0, 0])])
    };
    let before_min = elements([5, 0xffff_ffff, 0x7fff_ffff, 0x8000_0000]);
    let least = elements([3, 0xffff_fffe, 0x8000_0000, 0x8000_0000]);
    vec![
        accepted_run(
            "two xors",
            "run_two_xors",
            bytes(vec![], parts(&[elements([0xffff_ffff, 0, 0x1234_5678, 1]), beside()]), masks()),
            accepted(2, 2),
            bytes(vec![], parts(&[elements([0, 3, 0, 7]), beside()]), masks()),
        ),
        accepted_run(
            "two s32 mins",
            "run_two_mins_s32",
            bytes(vec![], parts(&[before_min, beside()]), numbers()),
            accepted(2, 2),
            bytes(vec![], parts(&[least, beside()]), numbers()),
        ),
    ]
}

fn places() -> Vec<RunRow> {
    let tens = || parts(&[elements([10, 20, 30, 40]), elements([50, 60, 70, 80])]);
    let edges = || {
        let first = elements([0xffff_ffff, 0xffff_ffff, 1, 0x8000_0000]);
        parts(&[first, all(0x55, 16)])
    };
    let before = elements([1, 0xffff_ffff, 0x7fff_ffff, 0x8000_0000]);
    let sums = elements([0, 0xffff_fffe, 0x8000_0000, 0]);
    vec![
        accepted_run(
            "eight elements",
            "reduction_size_32_of_32_both_ends",
            bytes(vec![], parts(&[elements([1, 2, 3, 4]), elements([5, 6, 7, 8])]), tens()),
            accepted(1, 1),
            bytes(vec![], parts(&[elements([11, 22, 33, 44]), elements([55, 66, 77, 88])]), tens()),
        ),
        accepted_run(
            "only the destination is written",
            "run_add_inside_a_memory",
            bytes(vec![], parts(&[count(0x10, 16), before]), edges()),
            accepted(1, 1),
            bytes(vec![], parts(&[count(0x10, 16), sums]), edges()),
        ),
    ]
}

/// The bulk wait orders what comes after it.
fn groups() -> Vec<RunRow> {
    let beside = || count(0x40, 16);
    let ones_and_tens = parts(&[elements([1, 1, 1, 1]), elements([10, 10, 10, 10]), beside()]);
    let sums_and_most = parts(&[elements([2, 3, 4, 5]), elements([12, 12, 13, 99]), beside()]);
    let sources = || {
        let adds = parts(&[elements([1, 2, 3, 4]), elements([1, 2, 3, 4])]);
        parts(&[adds, elements([12, 12, 12, 99])])
    };
    let source_before = parts(&[elements([10, 20, 30, 40]), beside()]);
    let before = parts(&[elements([1, 2, 3, 4]), beside()]);
    let sums = parts(&[elements([11, 22, 33, 44]), beside()]);
    vec![
        accepted_run(
            "an add, and after its bulk wait a max of the sums",
            "add_closed_then_max",
            bytes(vec![], ones_and_tens, sources()),
            accepted(4, 1),
            bytes(vec![], sums_and_most, sources()),
        ),
        accepted_run(
            "a store to the source after the bulk wait is not added",
            "run_add_then_store_to_its_source",
            bytes(all(0xaa, 4), before, source_before),
            accepted(5, 1),
            bytes(vec![11, 0, 0, 0], sums, parts(&[count(1, 16), beside()])),
        ),
    ]
}
