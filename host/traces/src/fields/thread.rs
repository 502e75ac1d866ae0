//! Space, size, zeros and value of loads and stores.

use crate::answers::*;
use crate::events::*;
use crate::file::{rows as table, OF_16};
use crate::row::{row, Row};

pub fn rows() -> Vec<Row> {
    [sizes(), other_sizes(), spaces(), zeros(), values()].concat()
}

fn sizes() -> Vec<Row> {
    const SIZES: [u8; 5] = [1, 2, 4, 8, 16];
    let load_global = SIZES.map(|size| load_global(0, size));
    let load_shared = SIZES.map(|size| load_shared(0, size));
    let store_global = SIZES.map(|size| store_global(0, size));
    let store_shared = SIZES.map(|size| store_shared(0, size));
    OF_16.rows(&[
        ("load_global_sizes_1_2_4_8_16", &load_global, accepted(5, 0)),
        ("load_shared_sizes_1_2_4_8_16", &load_shared, accepted(5, 0)),
        ("store_global_sizes_1_2_4_8_16", &store_global, accepted(5, 0)),
        ("store_shared_sizes_1_2_4_8_16", &store_shared, accepted(5, 0)),
    ])
}

fn other_sizes() -> Vec<Row> {
    let load = |size: u8| {
        let file = OF_16.file(&[load_shared(0, size)]);
        row(&format!("load_size_{size}"), file, field(0))
    };
    let store = |size: u8| {
        let file = OF_16.file(&[store_global(0, size)]);
        row(&format!("store_size_{size}"), file, field(0))
    };
    const SIZES: [u8; 5] = [0, 3, 5, 17, 32];
    [SIZES.map(load), SIZES.map(store)].concat()
}

/// Body byte 0.
fn spaces() -> Vec<Row> {
    let load = OF_16.file(&[load_shared(0, 4)]);
    let store = OF_16.file(&[store_shared(0, 4)]);
    table(vec![
        ("load_space_2", load.clone().with_body_byte(0, 0, 2), field(0)),
        ("store_space_2", store.clone().with_body_byte(0, 0, 2), field(0)),
    ])
}

/// Body bytes 2 and 3.
fn zeros() -> Vec<Row> {
    let load = OF_16.file(&[load_shared(0, 4)]);
    let store = OF_16.file(&[store_shared(0, 4)]);
    table(vec![
        ("load_body_byte_2_is_1", load.clone().with_body_byte(0, 2, 1), field(0)),
        ("load_body_byte_3_is_128", load.with_body_byte(0, 3, 128), field(0)),
        ("store_body_byte_2_is_1", store.clone().with_body_byte(0, 2, 1), field(0)),
        ("store_body_byte_3_is_128", store.with_body_byte(0, 3, 128), field(0)),
    ])
}

/// Body bytes 8 to 23: those past size are zero.
fn values() -> Vec<Row> {
    let store = |size| OF_16.file(&[store_shared(0, size)]);
    let value = |size, byte: usize, number| store(size).with_body_byte(0, 8 + byte, number);
    table(vec![
        ("store_size_1_value_byte_1_is_1", value(1, 1, 1), field(0)),
        ("store_size_1_value_byte_15_is_1", value(1, 15, 1), field(0)),
        ("store_size_2_value_byte_2_is_1", value(2, 2, 1), field(0)),
        ("store_size_4_value_byte_4_is_1", value(4, 4, 1), field(0)),
        ("store_size_8_value_byte_8_is_128", value(8, 8, 128), field(0)),
    ])
}
