//! Range (code 9): every byte read or written lies inside its memory; a source
//! of which no byte is read has no range check; addresses never wrap.

use crate::answers::*;
use crate::events::*;
use crate::file::{memories, OF_16};
use crate::row::Row;

/// The last address that a 16-byte access is aligned to: 2^32 minus 16.
const LAST: u32 = 4_294_967_280;

pub fn rows() -> Vec<Row> {
    [
        thread(),
        thread_last_byte(),
        memory_of_the_access(),
        thread_far(),
        longest_memories(),
        copies(),
        copy_sources_partly_read(),
        copies_far(),
        bulk_copies(),
        reductions(),
    ]
    .concat()
}

/// Just inside and just past a memory of 16.
fn thread() -> Vec<Row> {
    let inside = [
        load_global(15, 1),
        load_shared(15, 1),
        store_global(12, 4),
        store_shared(8, 8),
        load_global(0, 16),
        store_shared(14, 2),
    ];
    OF_16.rows(&[
        ("thread_accesses_to_the_last_byte", &inside, accepted(6, 0)),
        ("load_global_1_at_16_of_16", &[load_global(16, 1)], range(0)),
        ("load_shared_1_at_16_of_16", &[load_shared(16, 1)], range(0)),
        ("store_global_1_at_16_of_16", &[store_global(16, 1)], range(0)),
        ("store_shared_1_at_16_of_16", &[store_shared(16, 1)], range(0)),
    ])
}

/// The last byte alone is outside.
fn thread_last_byte() -> Vec<Row> {
    memories(15, 15).rows(&[
        ("load_global_4_at_12_of_15", &[load_global(12, 4)], range(0)),
        ("load_shared_16_at_0_of_15", &[load_shared(0, 16)], range(0)),
        ("store_global_8_at_8_of_15", &[store_global(8, 8)], range(0)),
        ("store_shared_2_at_14_of_15", &[store_shared(14, 2)], range(0)),
    ])
}

/// The length of the other memory does not matter.
fn memory_of_the_access() -> Vec<Row> {
    let global = [load_global(15, 1), store_global(0, 16)];
    let shared = [load_shared(15, 1), store_shared(0, 16)];
    [
        memories(16, 0).rows(&[
            ("global_16_shared_0_thread_in_global", &global, accepted(2, 0)),
            ("global_16_shared_0_load_shared", &[load_shared(0, 1)], range(0)),
        ]),
        memories(0, 16).rows(&[
            ("global_0_shared_16_thread_in_shared", &shared, accepted(2, 0)),
            ("global_0_shared_16_store_global", &[store_global(0, 1)], range(0)),
        ]),
    ]
    .concat()
}

/// Addresses and sums that come back into memory when cut to 32, 24 or 16 bits.
fn thread_far() -> Vec<Row> {
    OF_16.rows(&[
        ("load_global_16_at_4294967280", &[load_global(LAST, 16)], range(0)),
        ("load_shared_1_at_4294967295", &[load_shared(4_294_967_295, 1)], range(0)),
        ("store_global_8_at_4294967288", &[store_global(4_294_967_288, 8)], range(0)),
        ("load_global_4_at_65536", &[load_global(65_536, 4)], range(0)),
    ])
}

/// Memories of 65,536.
fn longest_memories() -> Vec<Row> {
    let inside = [load_global(65_535, 1), store_shared(65_520, 16)];
    memories(65_536, 65_536).rows(&[
        ("thread_at_the_end_of_65536", &inside, accepted(2, 0)),
        ("load_global_1_at_65536_of_65536", &[load_global(65_536, 1)], range(0)),
        ("store_shared_1_at_65536_of_65536", &[store_shared(65_536, 1)], range(0)),
        ("bulk_size_65536", &[bulk_copy(0, 0, 65_536)], accepted(1, 1)),
        ("bulk_size_65552", &[bulk_copy(0, 0, 65_552)], range(0)),
    ])
}

/// All cp-size bytes of the destination are written, whatever the mode.
fn copies() -> Vec<Row> {
    let both_ends = copy(12, 12, 4);
    [
        OF_16.rows(&[("copy_4_at_12_of_16_both_ends", &[both_ends], accepted(1, 1))]),
        memories(16, 15).rows(&[
            ("copy_4_dst_at_12_of_15", &[both_ends], range(0)),
            ("copy_given_3_dst_at_12_of_15", &[copy_given(12, 12, 4, 3)], range(0)),
            ("copy_ignored_dst_at_12_of_15", &[copy_ignored(12, 12, 4)], range(0)),
        ]),
        memories(15, 16).rows(&[("copy_4_src_at_12_of_15", &[both_ends], range(0))]),
    ]
    .concat()
}

/// Mode 1: the bytes past src-size are not read.
fn copy_sources_partly_read() -> Vec<Row> {
    let three = copy_given(0, 12, 4, 3);
    let one = copy_given(0, 0, 16, 1);
    [
        memories(15, 16).rows(&[
            ("copy_given_3_src_at_12_of_15", &[three], accepted(1, 1)),
            ("copy_given_4_src_at_12_of_15", &[copy_given(0, 12, 4, 4)], range(0)),
        ]),
        memories(14, 16).rows(&[("copy_given_3_src_at_12_of_14", &[three], range(0))]),
        memories(1, 16).rows(&[("copy_given_1_of_16_src_at_0_of_1", &[one], accepted(1, 1))]),
    ]
    .concat()
}

/// A source of which no byte is read may lie anywhere.
fn copies_far() -> Vec<Row> {
    memories(0, 16).rows(&[
        ("copy_ignored_src_at_4294967280", &[copy_ignored(0, LAST, 16)], accepted(1, 1)),
        ("copy_given_0_src_at_4294967280", &[copy_given(0, LAST, 16, 0)], accepted(1, 1)),
        ("copy_given_1_src_at_4294967280", &[copy_given(0, LAST, 16, 1)], range(0)),
        ("copy_16_src_at_4294967280", &[copy(0, LAST, 16)], range(0)),
        ("copy_ignored_dst_at_4294967292", &[copy_ignored(4_294_967_292, 0, 4)], range(0)),
    ])
}

fn bulk_copies() -> Vec<Row> {
    let two_thirds = bulk_copy(16, 16, 32);
    [
        memories(48, 48).rows(&[
            ("bulk_size_32_at_16_of_48_both_ends", &[two_thirds], accepted(1, 1)),
            ("bulk_copy_src_at_4294967280", &[bulk_copy(0, LAST, 32)], range(0)),
            ("bulk_size_4294967280", &[bulk_copy(0, 0, LAST)], range(0)),
        ]),
        memories(47, 48).rows(&[("bulk_size_32_dst_at_16_of_47", &[two_thirds], range(0))]),
        memories(48, 47).rows(&[("bulk_size_32_src_at_16_of_47", &[two_thirds], range(0))]),
    ]
    .concat()
}

fn reductions() -> Vec<Row> {
    let all = reduction(ADD_U32, 0, 0, 32);
    [
        memories(32, 32).rows(&[
            ("reduction_size_32_of_32_both_ends", &[all], accepted(1, 1)),
            ("reduction_dst_at_4294967280", &[reduction(OR_B32, LAST, 0, 32)], range(0)),
            ("reduction_src_at_4294967280", &[reduction(MIN_S32, 0, LAST, 32)], range(0)),
        ]),
        memories(31, 32).rows(&[("reduction_size_32_of_31_global", &[all], range(0))]),
        memories(32, 31).rows(&[("reduction_size_32_of_31_shared", &[all], range(0))]),
    ]
    .concat()
}
