//! The list of events so far: what is open, what clashes, and the peak.

use super::accesses::Accesses;
use super::event::{Chain, Event};

/// A group of a chain, by the number of commits before the one that makes it.
#[derive(Clone, Copy)]
struct Group {
    chain: Chain,
    number: u16,
}

/// An earlier event: its group while it is an open operation, none once it is closed or if it is no operation.
struct Earlier {
    accesses: Accesses,
    open_in: Option<Group>,
}

pub struct List {
    events: Vec<Earlier>,
    commits: u16,
    bulk_commits: u16,
    open: u16,
    peak: u16,
}

impl List {
    pub fn with_room_for(count: u16) -> List {
        List {
            events: Vec::with_capacity(usize::from(count)),
            commits: 0,
            bulk_commits: 0,
            open: 0,
            peak: 0,
        }
    }

    /// The largest number of operations open after any event.
    pub fn peak(&self) -> u16 {
        self.peak
    }

    /// Takes the next event, unless it clashes: then the lowest earlier event that it clashes with is given back.
    pub fn take(&mut self, event: Event) -> Result<(), u16> {
        let earlier = match event {
            Event::Thread(accesses) => self.thread(accesses)?,
            Event::Start(chain, accesses) => self.start(chain, accesses)?,
            Event::Commit(chain) => self.commit(chain),
            Event::Wait(chain, newest) => self.wait(chain, newest),
            Event::WaitAll => {
                self.commit(Chain::NonBulk);
                self.wait(Chain::NonBulk, 0)
            }
        };
        self.events.push(earlier);
        Ok(())
    }

    fn thread(&self, accesses: Accesses) -> Result<Earlier, u16> {
        self.no_clash(&accesses)?;
        Ok(Earlier {
            accesses,
            open_in: None,
        })
    }

    fn start(&mut self, chain: Chain, accesses: Accesses) -> Result<Earlier, u16> {
        self.no_clash(&accesses)?;
        self.open += 1;
        self.peak = self.peak.max(self.open);
        let number = *self.commits_of(chain);
        Ok(Earlier {
            accesses,
            open_in: Some(Group { chain, number }),
        })
    }

    fn no_clash(&self, accesses: &Accesses) -> Result<(), u16> {
        for (partner, earlier) in (0..).zip(&self.events) {
            if earlier.open_in.is_some() && earlier.accesses.clash(accesses) {
                return Err(partner);
            }
        }
        Ok(())
    }

    fn commit(&mut self, chain: Chain) -> Earlier {
        *self.commits_of(chain) += 1;
        Earlier::WITHOUT_ACCESS
    }

    /// Closes the operations of all groups but the newest. Those not yet committed have the number of a group to come.
    fn wait(&mut self, chain: Chain, newest: u32) -> Earlier {
        let closed = u32::from(*self.commits_of(chain)).saturating_sub(newest);
        for earlier in &mut self.events {
            if let Some(group) = earlier.open_in {
                if group.chain == chain && u32::from(group.number) < closed {
                    earlier.open_in = None;
                    self.open -= 1;
                }
            }
        }
        Earlier::WITHOUT_ACCESS
    }

    fn commits_of(&mut self, chain: Chain) -> &mut u16 {
        match chain {
            Chain::NonBulk => &mut self.commits,
            Chain::Bulk => &mut self.bulk_commits,
        }
    }
}

impl Earlier {
    const WITHOUT_ACCESS: Earlier = Earlier {
        accesses: Accesses::NONE,
        open_in: None,
    };
}
