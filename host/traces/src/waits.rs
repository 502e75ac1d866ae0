//! Groups, commits and waits: what each closes.

mod chain;
mod two_chains;
mod wait_all;

use crate::row::Row;

pub fn rows() -> Vec<Row> {
    [chain::rows(), wait_all::rows(), two_chains::rows()].concat()
}
