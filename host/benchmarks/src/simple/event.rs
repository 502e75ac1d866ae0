//! An event, as far as it matters to the judge.

use super::accesses::Accesses;

pub enum Event {
    /// A load or a store.
    Thread(Accesses),
    /// The start of a copy, bulk copy or reduction.
    Start(Chain, Accesses),
    Commit(Chain),
    Wait(Chain, u32),
    WaitAll,
}

/// The non-bulk and the bulk operations have groups and waits of their own.
#[derive(Clone, Copy, PartialEq, Eq)]
pub enum Chain {
    NonBulk,
    Bulk,
}
