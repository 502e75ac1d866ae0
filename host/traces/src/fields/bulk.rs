//! Size of bulk copies; size, operation, type and zeros of reductions.

use crate::answers::*;
use crate::events::*;
use crate::file::{memories, rows as table, File, OF_16};
use crate::row::{row, Row};

/// The places of the fields in a reduction's body.
const OPERATION: usize = 12;
const TYPE: usize = 13;

pub fn rows() -> Vec<Row> {
    [sizes(), other_sizes(), pairs(), other_pairs(), other_numbers(), zeros()].concat()
}

fn sizes() -> Vec<Row> {
    memories(48, 48).rows(&[
        ("bulk_size_16", &[bulk_copy(0, 0, 16)], accepted(1, 1)),
        ("bulk_size_32", &[bulk_copy(0, 0, 32)], accepted(1, 1)),
    ])
}

fn other_sizes() -> Vec<Row> {
    let of = memories(48, 48);
    let bulk = |size: u32| {
        let file = of.file(&[bulk_copy(0, 0, size)]);
        row(&format!("bulk_size_{size}"), file, field(0))
    };
    let reduced = |size: u32| {
        let file = of.file(&[reduction(ADD_U32, 0, 0, size)]);
        row(&format!("reduction_size_{size}"), file, field(0))
    };
    [[0, 8, 15, 17, 24, 4_294_967_295].map(bulk).to_vec(), [0, 24].map(reduced).to_vec()].concat()
}

/// Operations 0 to 2 with b32, 3 to 5 with u32 or s32.
fn pairs() -> Vec<Row> {
    memories(16, 32).rows(&[
        ("reduction_and_b32", &[reduction(AND_B32, 0, 16, 16)], accepted(1, 1)),
        ("reduction_or_b32", &[reduction(OR_B32, 0, 16, 16)], accepted(1, 1)),
        ("reduction_xor_b32", &[reduction(XOR_B32, 0, 16, 16)], accepted(1, 1)),
        ("reduction_add_u32", &[reduction(ADD_U32, 0, 16, 16)], accepted(1, 1)),
        ("reduction_add_s32", &[reduction(ADD_S32, 0, 16, 16)], accepted(1, 1)),
        ("reduction_min_u32", &[reduction(MIN_U32, 0, 16, 16)], accepted(1, 1)),
        ("reduction_min_s32", &[reduction(MIN_S32, 0, 16, 16)], accepted(1, 1)),
        ("reduction_max_u32", &[reduction(MAX_U32, 0, 16, 16)], accepted(1, 1)),
        ("reduction_max_s32", &[reduction(MAX_S32, 0, 16, 16)], accepted(1, 1)),
    ])
}

/// A reduction with these numbers for operation and type.
fn numbers(operation: u8, element: u8) -> File {
    OF_16
        .file(&[reduction(ADD_U32, 0, 0, 16)])
        .with_body_byte(0, OPERATION, operation)
        .with_body_byte(0, TYPE, element)
}

fn other_pairs() -> Vec<Row> {
    table(vec![
        ("reduction_and_u32", numbers(0, 1), field(0)),
        ("reduction_and_s32", numbers(0, 2), field(0)),
        ("reduction_or_u32", numbers(1, 1), field(0)),
        ("reduction_or_s32", numbers(1, 2), field(0)),
        ("reduction_xor_u32", numbers(2, 1), field(0)),
        ("reduction_xor_s32", numbers(2, 2), field(0)),
        ("reduction_add_b32", numbers(3, 0), field(0)),
        ("reduction_min_b32", numbers(4, 0), field(0)),
        ("reduction_max_b32", numbers(5, 0), field(0)),
    ])
}

fn other_numbers() -> Vec<Row> {
    table(vec![
        ("reduction_operation_6_b32", numbers(6, 0), field(0)),
        ("reduction_operation_6_u32", numbers(6, 1), field(0)),
        ("reduction_and_type_3", numbers(0, 3), field(0)),
        ("reduction_add_type_3", numbers(3, 3), field(0)),
    ])
}

fn zeros() -> Vec<Row> {
    let add = OF_16.file(&[reduction(ADD_U32, 0, 0, 16)]);
    table(vec![
        ("reduction_body_byte_14_is_1", add.clone().with_body_byte(0, 14, 1), field(0)),
        ("reduction_body_byte_15_is_128", add.with_body_byte(0, 15, 128), field(0)),
    ])
}
