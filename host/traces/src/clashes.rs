//! Clashes (code 10): two accesses that share a byte of one memory, at least one
//! of them writing it, with nothing that orders them.

mod bulk;
mod copies;
mod copy_and_bulk;
mod partner;
mod reductions;
mod sources;
mod thread;

use crate::row::Row;

pub fn rows() -> Vec<Row> {
    [
        thread::rows(),
        sources::rows(),
        copies::rows(),
        copy_and_bulk::rows(),
        bulk::rows(),
        reductions::rows(),
        partner::rows(),
    ]
    .concat()
}
