//! The two memories, and what loads, stores and operations do to their bytes.

use crate::access::bytes_read;
use crate::trace::{ElementType, Event, GlobalAddress, Operation, Place, SharedAddress};

/// Global memory: only a global address finds a byte in it.
pub struct GlobalMemory<'a>(&'a mut [u8]);

/// Shared memory: only a shared address finds a byte in it.
pub struct SharedMemory<'a>(&'a mut [u8]);

/// The two memories.
pub struct Memories<'a> {
    global: GlobalMemory<'a>,
    shared: SharedMemory<'a>,
}

impl<'a> Memories<'a> {
    pub fn new(global: &'a mut [u8], shared: &'a mut [u8]) -> Memories<'a> {
        Memories {
            global: GlobalMemory(global),
            shared: SharedMemory(shared),
        }
    }

    /// The bytes a load gives.
    pub fn load(&self, place: Place, size: u8) -> &[u8] {
        match place {
            Place::Global(address) => self.global.part(address, size.into()),
            Place::Shared(address) => self.shared.part(address, size.into()),
        }
    }

    /// A store writes the first `size` bytes of its value.
    pub fn store(&mut self, place: Place, size: u8, value: &[u8; 16]) {
        let destination = match place {
            Place::Global(address) => self.global.part_mut(address, size.into()),
            Place::Shared(address) => self.shared.part_mut(address, size.into()),
        };
        copy(destination, value);
    }

    /// An operation acts, whole. An event that starts none does nothing.
    pub fn act(&mut self, event: &Event) {
        match *event {
            Event::Copy {
                dst,
                src,
                src_size,
                cp_size,
                mode,
                ..
            } => {
                let read = bytes_read(mode, src_size, cp_size);
                let destination = self.shared.part_mut(dst, cp_size.into());
                copy(destination, self.global.part(src, read));
            }
            Event::BulkCopy { dst, src, size } => {
                let destination = self.global.part_mut(dst, size);
                copy(destination, self.shared.part(src, size));
            }
            Event::Reduction {
                dst,
                src,
                size,
                operation,
                element,
            } => {
                let destination = self.global.part_mut(dst, size);
                reduce(destination, self.shared.part(src, size), operation, element);
            }
            _ => {}
        }
    }
}

/// Writes the whole destination: the source's bytes, and zeros past them.
fn copy(destination: &mut [u8], source: &[u8]) {
    let zeros = std::iter::repeat(&0);
    for (into, from) in destination.iter_mut().zip(source.iter().chain(zeros)) {
        *into = *from;
    }
}

/// Sets each 4-byte element to destination combined with source.
fn reduce(destination: &mut [u8], source: &[u8], operation: Operation, element: ElementType) {
    for (into, from) in destination.chunks_exact_mut(4).zip(source.chunks_exact(4)) {
        let combined = combine(value(into), value(from), operation, element);
        into.copy_from_slice(&combined.to_le_bytes());
    }
}

/// The value of one element of four bytes.
fn value(element: &[u8]) -> u32 {
    u32::from_le_bytes([element[0], element[1], element[2], element[3]])
}

/// Add wraps at 2^32; s32 compares as two's complement.
fn combine(destination: u32, source: u32, operation: Operation, element: ElementType) -> u32 {
    let source_is_less = match element {
        ElementType::S32 => (source as i32) < (destination as i32),
        ElementType::B32 | ElementType::U32 => source < destination,
    };
    match operation {
        Operation::And => destination & source,
        Operation::Or => destination | source,
        Operation::Xor => destination ^ source,
        Operation::Add => destination.wrapping_add(source),
        Operation::Min if source_is_less => source,
        Operation::Min => destination,
        Operation::Max if source_is_less => destination,
        Operation::Max => source,
    }
}

impl GlobalMemory<'_> {
    fn part(&self, start: GlobalAddress, length: u32) -> &[u8] {
        self.0.get(range(start.0, length)).unwrap_or_default()
    }

    fn part_mut(&mut self, start: GlobalAddress, length: u32) -> &mut [u8] {
        self.0.get_mut(range(start.0, length)).unwrap_or_default()
    }
}

impl SharedMemory<'_> {
    fn part(&self, start: SharedAddress, length: u32) -> &[u8] {
        self.0.get(range(start.0, length)).unwrap_or_default()
    }

    fn part_mut(&mut self, start: SharedAddress, length: u32) -> &mut [u8] {
        self.0.get_mut(range(start.0, length)).unwrap_or_default()
    }
}

/// The places of a part in its memory; a part that does not lie inside it is
/// refused before (code 9) and finds no byte here.
fn range(start: u32, length: u32) -> std::ops::Range<usize> {
    let end = u64::from(start) + u64::from(length);
    place(start.into())..place(end)
}

fn place(address: u64) -> usize {
    usize::try_from(address).unwrap_or(usize::MAX)
}
