//! N is any 32-bit number.

use crate::answers::*;
use crate::events::*;
use crate::file::OF_16;
use crate::row::Row;

pub fn rows() -> Vec<Row> {
    const NUMBERS: [u32; 7] = [0, 1, 255, 256, 65_536, 2_147_483_648, 4_294_967_295];
    OF_16.rows(&[
        ("wait_any_number", &NUMBERS.map(wait), accepted(7, 0)),
        ("bulk_wait_any_number", &NUMBERS.map(bulk_wait), accepted(7, 0)),
    ])
}
