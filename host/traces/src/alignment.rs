//! Alignment (code 8): thread accesses to their size, copies to cp-size at both
//! ends whatever the mode, bulk to 16 at both ends.

use crate::answers::*;
use crate::events::*;
use crate::file::{memories, Memories};
use crate::row::Row;
use second::trace::Event;

const OF_64: Memories = memories(64, 64);

pub fn rows() -> Vec<Row> {
    [
        thread_aligned(),
        loads(),
        stores(),
        out_of_range(),
        copies_aligned(),
        plain_copies(),
        copies_of_other_modes(),
        bulk_aligned(),
        bulk(),
    ]
    .concat()
}

/// At its own size; single bytes anywhere.
fn thread_aligned() -> Vec<Row> {
    let bytes = [load_global(1, 1), load_shared(3, 1), store_global(5, 1), store_shared(63, 1)];
    let each =
        |access: fn(u32, u8) -> Event| [access(2, 2), access(4, 4), access(8, 8), access(16, 16)];
    let both = |first, second| [each(first), each(second)].concat();
    OF_64.rows(&[
        ("single_bytes_at_odd_addresses", &bytes, accepted(4, 0)),
        ("loads_at_their_size", &both(load_global, load_shared), accepted(8, 0)),
        ("stores_at_their_size", &both(store_global, store_shared), accepted(8, 0)),
    ])
}

fn loads() -> Vec<Row> {
    OF_64.rows(&[
        ("load_global_size_2_at_1", &[load_global(1, 2)], alignment(0)),
        ("load_global_size_4_at_2", &[load_global(2, 4)], alignment(0)),
        ("load_global_size_8_at_4", &[load_global(4, 8)], alignment(0)),
        ("load_global_size_16_at_8", &[load_global(8, 16)], alignment(0)),
        ("load_shared_size_8_at_4", &[load_shared(4, 8)], alignment(0)),
    ])
}

fn stores() -> Vec<Row> {
    OF_64.rows(&[
        ("store_global_size_8_at_4", &[store_global(4, 8)], alignment(0)),
        ("store_shared_size_2_at_1", &[store_shared(1, 2)], alignment(0)),
        ("store_shared_size_4_at_2", &[store_shared(2, 4)], alignment(0)),
        ("store_shared_size_8_at_12", &[store_shared(12, 8)], alignment(0)),
        ("store_shared_size_16_at_8", &[store_shared(8, 16)], alignment(0)),
    ])
}

/// Alignment is checked first, and of both ends before the range of either.
fn out_of_range() -> Vec<Row> {
    memories(4, 4).rows(&[
        ("load_size_8_at_4_out_of_range", &[load_shared(4, 8)], alignment(0)),
        ("load_size_16_at_4294967288", &[load_global(4_294_967_288, 16)], alignment(0)),
        ("copy_dst_at_2_src_out_of_range", &[copy(2, 4, 4)], alignment(0)),
        ("copy_src_at_2_dst_out_of_range", &[copy(4, 2, 4)], alignment(0)),
    ])
}

/// The copies write to different places: shared 4 to 31, and 36 to 63.
fn copies_aligned() -> Vec<Row> {
    let plain = [copy(4, 4, 4), copy(8, 8, 8), copy(16, 16, 16)];
    let given = [copy_given(36, 4, 4, 2), copy_given(40, 8, 8, 4), copy_given(48, 16, 16, 8)];
    OF_64.rows(&[("copies_at_their_cp_size", &[plain, given].concat(), accepted(6, 6))])
}

fn plain_copies() -> Vec<Row> {
    OF_64.rows(&[
        ("copy_4_dst_at_2", &[copy(2, 0, 4)], alignment(0)),
        ("copy_4_src_at_2", &[copy(0, 2, 4)], alignment(0)),
        ("copy_8_dst_at_4", &[copy(4, 0, 8)], alignment(0)),
        ("copy_8_src_at_4", &[copy(0, 4, 8)], alignment(0)),
        ("copy_16_dst_at_8", &[copy(8, 0, 16)], alignment(0)),
        ("copy_16_src_at_8", &[copy(0, 8, 16)], alignment(0)),
    ])
}

/// To cp-size, not to src-size, and also when no byte of the source is read.
fn copies_of_other_modes() -> Vec<Row> {
    OF_64.rows(&[
        ("copy_4_given_2_src_at_2", &[copy_given(0, 2, 4, 2)], alignment(0)),
        ("copy_16_given_8_dst_at_8", &[copy_given(8, 0, 16, 8)], alignment(0)),
        ("copy_16_given_0_src_at_8", &[copy_given(0, 8, 16, 0)], alignment(0)),
        ("copy_16_ignored_dst_at_8", &[copy_ignored(8, 0, 16)], alignment(0)),
        ("copy_16_ignored_src_at_8", &[copy_ignored(0, 8, 16)], alignment(0)),
    ])
}

/// To 16, not to its size. The two share no byte.
fn bulk_aligned() -> Vec<Row> {
    let both = [bulk_copy(16, 16, 32), reduction(ADD_U32, 48, 48, 16)];
    OF_64.rows(&[("bulk_operations_at_multiples_of_16", &both, accepted(2, 2))])
}

fn bulk() -> Vec<Row> {
    OF_64.rows(&[
        ("bulk_copy_dst_at_8", &[bulk_copy(8, 0, 16)], alignment(0)),
        ("bulk_copy_src_at_8", &[bulk_copy(0, 8, 16)], alignment(0)),
        ("reduction_dst_at_4", &[reduction(ADD_U32, 4, 0, 16)], alignment(0)),
        ("reduction_src_at_4", &[reduction(ADD_U32, 0, 4, 16)], alignment(0)),
    ])
}
