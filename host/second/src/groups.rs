//! The groups of the two chains, as plain lists of event numbers.

use crate::trace::Event;

/// One of the two chains. Each has its own groups, commit and wait, and neither
/// chain's waits close the other's operations.
#[derive(Clone, Copy, Debug, PartialEq, Eq)]
pub enum Chain {
    NonBulk,
    Bulk,
}

/// The groups of one chain, and its operations that are in none yet. Closed
/// groups are left out: they are older than every open one, so they never take
/// the place of an open one among the N newest.
#[derive(Clone, Debug, Default, PartialEq, Eq)]
pub struct Groups {
    /// The operations started and not yet committed.
    pub uncommitted: Vec<usize>,
    /// The groups committed and not yet closed, the oldest first.
    pub committed: Vec<Vec<usize>>,
}

impl Groups {
    /// An operation starts; it is open from now on.
    pub fn start(&mut self, operation: usize) {
        self.uncommitted.push(operation);
    }

    /// A commit makes a group, perhaps empty, of the operations started and not
    /// yet committed.
    pub fn commit(&mut self) {
        let group = std::mem::take(&mut self.uncommitted);
        self.committed.push(group);
    }

    /// Wait `n` closes every operation in all groups but the `n` newest, and
    /// tells which. Uncommitted operations stay open.
    pub fn wait(&mut self, n: u32) -> Vec<usize> {
        let newest = usize::try_from(n).unwrap_or(usize::MAX);
        let all_but_newest = self.committed.len().saturating_sub(newest);
        self.committed.drain(..all_but_newest).flatten().collect()
    }

    /// The operations still open, in file order.
    pub fn open(&self) -> Vec<usize> {
        let committed = self.committed.iter().flatten();
        committed.chain(&self.uncommitted).copied().collect()
    }
}

/// The groups of both chains.
#[derive(Clone, Debug, Default, PartialEq, Eq)]
pub struct Chains {
    non_bulk: Groups,
    bulk: Groups,
}

impl Chains {
    /// The chains after a list of events.
    pub fn after(events: &[Event]) -> Chains {
        let mut chains = Chains::default();
        for (number, event) in events.iter().enumerate() {
            chains.take(number, event);
        }
        chains
    }

    /// Takes the event of that number and tells which operations it closes.
    pub fn take(&mut self, number: usize, event: &Event) -> Vec<usize> {
        match *event {
            Event::Load { .. } | Event::Store { .. } => {}
            Event::Copy { .. } => self.non_bulk.start(number),
            Event::Commit => self.non_bulk.commit(),
            Event::Wait { n } => return self.non_bulk.wait(n),
            // Wait-all is a commit and then wait 0.
            Event::WaitAll => {
                self.non_bulk.commit();
                return self.non_bulk.wait(0);
            }
            Event::BulkCopy { .. } | Event::Reduction { .. } => self.bulk.start(number),
            Event::BulkCommit => self.bulk.commit(),
            Event::BulkWait { n } => return self.bulk.wait(n),
        }
        Vec::new()
    }

    /// The groups of one chain.
    pub fn groups(&self, chain: Chain) -> &Groups {
        match chain {
            Chain::NonBulk => &self.non_bulk,
            Chain::Bulk => &self.bulk,
        }
    }

    /// The operations of both chains that are still open, in file order.
    pub fn open(&self) -> Vec<usize> {
        let mut open = self.non_bulk.open();
        open.extend(self.bulk.open());
        open.sort_unstable();
        open
    }
}

/// Whether the event of number `wait` is the wait that closes the operation
/// started by the event of number `operation`.
pub fn closed_by(events: &[Event], operation: usize, wait: usize) -> bool {
    match (events.get(..wait), events.get(wait)) {
        (Some(before), Some(event)) => Chains::after(before).take(wait, event).contains(&operation),
        _ => false,
    }
}
