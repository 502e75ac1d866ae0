//! The bytes that an event reads or writes, and which of them clash.

/// What an event does to each memory: every kind has at most one part of each.
#[derive(Clone, Copy)]
pub struct Accesses {
    pub global: Access,
    pub shared: Access,
}

/// The bytes from `start` to `end`, without the last, and the way they are used.
#[derive(Clone, Copy)]
pub struct Access {
    pub start: u32,
    pub end: u32,
    pub way: Way,
}

#[derive(Clone, Copy, PartialEq, Eq)]
pub enum Way {
    Read,
    Write,
    Reduce(Operation, Element),
}

#[derive(Clone, Copy, PartialEq, Eq)]
pub enum Operation {
    And,
    Or,
    Xor,
    Add,
    Min,
    Max,
}

#[derive(Clone, Copy, PartialEq, Eq)]
pub enum Element {
    B32,
    U32,
    S32,
}

impl Accesses {
    pub const NONE: Accesses = Accesses {
        global: Access::NONE,
        shared: Access::NONE,
    };

    pub fn clash(&self, other: &Accesses) -> bool {
        self.global.clashes(other.global) || self.shared.clashes(other.shared)
    }
}

impl Access {
    /// No bytes: as it ends at 0, it overlaps nothing.
    pub const NONE: Access = Access {
        start: 0,
        end: 0,
        way: Way::Read,
    };

    fn clashes(self, other: Access) -> bool {
        self.start < other.end && other.start < self.end && !self.way.agrees(other.way)
    }
}

impl Way {
    /// Two reads, or two reductions of one operation and one type, leave the same bytes in either order.
    fn agrees(self, other: Way) -> bool {
        self == other && self != Way::Write
    }
}
