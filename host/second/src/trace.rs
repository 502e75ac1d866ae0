//! The events of a trace and the trace itself, as the document names them.

mod fields;
mod shape;
mod words;
mod write;

pub use shape::{read, shape, Shape};

/// The number of events a file may have.
pub const MOST_EVENTS: usize = 1_024;

/// The number of bytes a memory may have.
pub const MOST_BYTES: u32 = 65_536;

/// One of the two memories.
#[derive(Clone, Copy, Debug, PartialEq, Eq)]
pub enum Space {
    Global,
    Shared,
}

/// An address in global memory.
#[derive(Clone, Copy, Debug, PartialEq, Eq)]
pub struct GlobalAddress(pub u32);

/// An address in shared memory.
#[derive(Clone, Copy, Debug, PartialEq, Eq)]
pub struct SharedAddress(pub u32);

/// Where the thread loads or stores.
#[derive(Clone, Copy, Debug, PartialEq, Eq)]
pub enum Place {
    Global(GlobalAddress),
    Shared(SharedAddress),
}

/// The operation of a reduction.
#[derive(Clone, Copy, Debug, PartialEq, Eq)]
pub enum Operation {
    And,
    Or,
    Xor,
    Add,
    Min,
    Max,
}

/// The element type of a reduction.
#[derive(Clone, Copy, Debug, PartialEq, Eq)]
pub enum ElementType {
    B32,
    U32,
    S32,
}

/// The cache field of a copy; it changes nothing.
#[derive(Clone, Copy, Debug, PartialEq, Eq)]
pub enum Cache {
    Ca,
    Cg,
}

/// The mode of a copy: plain, src-size given, or source ignored.
#[derive(Clone, Copy, Debug, PartialEq, Eq)]
pub enum Mode {
    Plain,
    Given,
    Ignored,
}

/// One event of the recorded thread.
#[derive(Clone, Copy, Debug, PartialEq, Eq)]
pub enum Event {
    Load {
        place: Place,
        size: u8,
    },
    Store {
        place: Place,
        size: u8,
        value: [u8; 16],
    },
    Copy {
        dst: SharedAddress,
        src: GlobalAddress,
        src_size: u32,
        cp_size: u8,
        mode: Mode,
        cache: Cache,
    },
    Commit,
    Wait {
        n: u32,
    },
    WaitAll,
    BulkCopy {
        dst: GlobalAddress,
        src: SharedAddress,
        size: u32,
    },
    Reduction {
        dst: GlobalAddress,
        src: SharedAddress,
        size: u32,
        operation: Operation,
        element: ElementType,
    },
    BulkCommit,
    BulkWait {
        n: u32,
    },
}

impl Event {
    /// The kind byte of the event.
    pub fn kind(&self) -> u8 {
        match self {
            Event::Load { .. } => 1,
            Event::Store { .. } => 2,
            Event::Copy { .. } => 16,
            Event::Commit => 17,
            Event::Wait { .. } => 18,
            Event::WaitAll => 19,
            Event::BulkCopy { .. } => 32,
            Event::Reduction { .. } => 33,
            Event::BulkCommit => 34,
            Event::BulkWait { .. } => 35,
        }
    }

    /// Whether the event starts an operation, which acts by itself later.
    pub fn starts_operation(&self) -> bool {
        matches!(
            self,
            Event::Copy { .. } | Event::BulkCopy { .. } | Event::Reduction { .. }
        )
    }
}

/// A trace: the lengths of the two memories, and the events in file order.
#[derive(Clone, Debug, PartialEq, Eq)]
pub struct Trace {
    pub global_length: u32,
    pub shared_length: u32,
    pub events: Vec<Event>,
}
