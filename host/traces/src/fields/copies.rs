//! Sizes, mode, cache and zero of copies.

use crate::answers::*;
use crate::events::*;
use crate::file::{memories, rows as table, File, OF_16};
use crate::row::{row, Row};

/// The places of the fields in a copy's body.
const SRC_SIZE: usize = 8;
const SRC_SIZE_TOP: usize = 11;
const MODE: usize = 13;
const CACHE: usize = 14;
const ZERO: usize = 15;

pub fn rows() -> Vec<Row> {
    [sizes(), other_sizes(), modes(), caches(), src_size_unused(), src_size_given()].concat()
}

/// Each cp-size in each mode; the three copies write to different places.
fn sizes() -> Vec<Row> {
    let plain = [copy(0, 0, 4), copy(8, 0, 8), copy(16, 0, 16)];
    let ignored = [copy_ignored(0, 0, 4), copy_ignored(8, 0, 8), copy_ignored(16, 0, 16)];
    let given = |four, eight, sixteen| {
        [copy_given(0, 0, 4, four), copy_given(8, 0, 8, eight), copy_given(16, 0, 16, sixteen)]
    };
    memories(32, 32).rows(&[
        ("copy_plain_sizes_4_8_16", &plain, accepted(3, 3)),
        ("copy_ignored_sizes_4_8_16", &ignored, accepted(3, 3)),
        ("copy_given_none_of_4_8_16", &given(0, 0, 0), accepted(3, 3)),
        ("copy_given_one_less_than_4_8_16", &given(3, 7, 15), accepted(3, 3)),
        ("copy_given_all_of_4_8_16", &given(4, 8, 16), accepted(3, 3)),
    ])
}

fn other_sizes() -> Vec<Row> {
    let other = |cp_size: u8| {
        let file = OF_16.file(&[copy(0, 0, cp_size)]);
        row(&format!("copy_cp_size_{cp_size}"), file, field(0))
    };
    [0, 1, 2, 3, 5, 17, 32].map(other).to_vec()
}

fn modes() -> Vec<Row> {
    let copied = || OF_16.file(&[copy(0, 0, 4)]);
    table(vec![
        ("copy_mode_3", copied().with_body_byte(0, MODE, 3), field(0)),
        ("copy_body_byte_15_is_1", copied().with_body_byte(0, ZERO, 1), field(0)),
    ])
}

fn caches() -> Vec<Row> {
    let cache = |event, cache| OF_16.file(&[event]).with_body_byte(0, CACHE, cache);
    table(vec![
        ("copy_cg_with_cp_size_16", cache(copy(0, 0, 16), 1), accepted(1, 1)),
        ("copy_cg_with_cp_size_4", cache(copy(0, 0, 4), 1), field(0)),
        ("copy_cg_with_cp_size_8", cache(copy(0, 0, 8), 1), field(0)),
        ("copy_cache_2", cache(copy(0, 0, 16), 2), field(0)),
    ])
}

/// In modes 0 and 2 the src-size field is zero.
fn src_size_unused() -> Vec<Row> {
    let plain = |at, value| OF_16.file(&[copy(0, 0, 4)]).with_body_byte(0, at, value);
    let ignored = |at, value| OF_16.file(&[copy_ignored(0, 0, 4)]).with_body_byte(0, at, value);
    table(vec![
        ("copy_plain_src_size_1", plain(SRC_SIZE, 1), field(0)),
        ("copy_plain_src_size_4_of_4", plain(SRC_SIZE, 4), field(0)),
        ("copy_ignored_src_size_1", ignored(SRC_SIZE, 1), field(0)),
        ("copy_ignored_src_size_16777216", ignored(SRC_SIZE_TOP, 1), field(0)),
    ])
}

/// In mode 1 it is at most cp-size.
fn src_size_given() -> Vec<Row> {
    let given = |src_size, cp_size| -> File { OF_16.file(&[copy_given(0, 0, cp_size, src_size)]) };
    table(vec![
        ("src_size_4_of_4", given(4, 4), accepted(1, 1)),
        ("src_size_5_of_4", given(5, 4), field(0)),
        ("src_size_9_of_8", given(9, 8), field(0)),
        ("src_size_17_of_16", given(17, 16), field(0)),
        ("src_size_256_of_4", given(256, 4), field(0)),
        ("src_size_4294967295_of_16", given(4_294_967_295, 16), field(0)),
    ])
}
