//! The fields of each kind (code 7), on both sides of what is allowed.

mod bulk;
mod copies;
mod thread;
mod waits;

use crate::row::Row;

pub fn rows() -> Vec<Row> {
    [thread::rows(), copies::rows(), bulk::rows(), waits::rows()].concat()
}
