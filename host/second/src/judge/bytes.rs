//! Each byte of both memories with what the open operations do to it.

use crate::access::{accesses, Range};
use crate::trace::{ElementType, Event, Operation, Space};

/// What the open operations do to one byte.
#[derive(Clone, Copy, Default)]
struct Byte {
    /// How many open operations read it.
    readers: u16,
    /// How many open operations write it.
    writers: u16,
    /// The reduction that the writers are, or none where a copy writes. Two
    /// writers are never unlike here: the second would have been refused.
    reduction: Option<Reduction>,
}

/// The operation and the type of a reduction.
type Reduction = (Operation, ElementType);

/// A byte at which an event clashes with an open operation.
#[derive(Clone, Copy)]
pub struct ClashingByte {
    pub space: Space,
    pub address: u64,
}

/// All bytes of both memories.
pub struct Bytes {
    global: Vec<Byte>,
    shared: Vec<Byte>,
}

impl Bytes {
    /// Two memories that no open operation touches.
    pub fn untouched(global_length: u32, shared_length: u32) -> Bytes {
        Bytes {
            global: vec![Byte::default(); place(global_length.into())],
            shared: vec![Byte::default(); place(shared_length.into())],
        }
    }

    /// An operation opens: each byte it reads has one more reader, each byte it
    /// writes one more writer.
    pub fn open(&mut self, operation: &Event) {
        for access in accesses(operation) {
            for byte in self.range_mut(&access.range) {
                if access.writes {
                    byte.writers = byte.writers.saturating_add(1);
                    byte.reduction = reduction(operation);
                } else {
                    byte.readers = byte.readers.saturating_add(1);
                }
            }
        }
    }

    /// An operation closes, and its readers and writers go.
    pub fn close(&mut self, operation: &Event) {
        for access in accesses(operation) {
            for byte in self.range_mut(&access.range) {
                if access.writes {
                    byte.writers = byte.writers.saturating_sub(1);
                } else {
                    byte.readers = byte.readers.saturating_sub(1);
                }
            }
        }
    }

    /// The first byte at which the event clashes with an open operation.
    pub fn clash(&self, event: &Event) -> Option<ClashingByte> {
        let reduction = reduction(event);
        for access in accesses(event) {
            let range = access.range;
            let clashing = |byte: &Byte| byte.clashes(access.writes, reduction);
            if let Some(found) = self.range(&range).iter().position(clashing) {
                return Some(ClashingByte {
                    space: range.space,
                    address: range.start.saturating_add(found as u64),
                });
            }
        }
        None
    }

    fn range(&self, range: &Range) -> &[Byte] {
        let memory = match range.space {
            Space::Global => &self.global,
            Space::Shared => &self.shared,
        };
        let bytes = memory.get(place(range.start)..place(range.end()));
        bytes.unwrap_or_default()
    }

    fn range_mut(&mut self, range: &Range) -> &mut [Byte] {
        let memory = match range.space {
            Space::Global => &mut self.global,
            Space::Shared => &mut self.shared,
        };
        let bytes = memory.get_mut(place(range.start)..place(range.end()));
        bytes.unwrap_or_default()
    }
}

impl Byte {
    /// Whether an access of the byte clashes with an open operation's: at least
    /// one of the two writes it, and they aren't two reductions of one operation
    /// and one type.
    fn clashes(&self, writes: bool, reduction: Option<Reduction>) -> bool {
        let alike = reduction.is_some() && self.reduction == reduction;
        if writes {
            self.readers > 0 || (self.writers > 0 && !alike)
        } else {
            self.writers > 0
        }
    }
}

/// The reduction that an event starts, if it starts one.
fn reduction(event: &Event) -> Option<Reduction> {
    match *event {
        Event::Reduction {
            operation, element, ..
        } => Some((operation, element)),
        _ => None,
    }
}

/// A byte's place in the list of its memory's bytes.
fn place(address: u64) -> usize {
    usize::try_from(address).unwrap_or(usize::MAX)
}
