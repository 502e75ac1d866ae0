//! Events in few words. A copy's destination is a shared address and its source
//! a global one; a bulk operation's are the other way round.

use second::trace::{
    Cache, ElementType, Event, GlobalAddress, Mode, Operation, Place, SharedAddress,
};

pub const COMMIT: Event = Event::Commit;
pub const WAIT_ALL: Event = Event::WaitAll;
pub const BULK_COMMIT: Event = Event::BulkCommit;

/// The operation and element type of a reduction.
pub type Pair = (Operation, ElementType);

pub const AND_B32: Pair = (Operation::And, ElementType::B32);
pub const OR_B32: Pair = (Operation::Or, ElementType::B32);
pub const XOR_B32: Pair = (Operation::Xor, ElementType::B32);
pub const ADD_U32: Pair = (Operation::Add, ElementType::U32);
pub const ADD_S32: Pair = (Operation::Add, ElementType::S32);
pub const MIN_U32: Pair = (Operation::Min, ElementType::U32);
pub const MIN_S32: Pair = (Operation::Min, ElementType::S32);
pub const MAX_U32: Pair = (Operation::Max, ElementType::U32);
pub const MAX_S32: Pair = (Operation::Max, ElementType::S32);

pub fn load_global(address: u32, size: u8) -> Event {
    let place = Place::Global(GlobalAddress(address));
    Event::Load { place, size }
}

pub fn load_shared(address: u32, size: u8) -> Event {
    let place = Place::Shared(SharedAddress(address));
    Event::Load { place, size }
}

/// Stores the bytes 1, 2, 3 and so on.
pub fn store_global(address: u32, size: u8) -> Event {
    store(Place::Global(GlobalAddress(address)), size)
}

/// Stores the bytes 1, 2, 3 and so on.
pub fn store_shared(address: u32, size: u8) -> Event {
    store(Place::Shared(SharedAddress(address)), size)
}

fn store(place: Place, size: u8) -> Event {
    let mut value = [0; 16];
    for (byte, number) in value.iter_mut().zip(1..=size) {
        *byte = number;
    }
    Event::Store { place, size, value }
}

/// A copy of mode 0.
pub fn copy(dst: u32, src: u32, cp_size: u8) -> Event {
    copy_of_mode(Mode::Plain, dst, src, cp_size, 0)
}

/// A copy of mode 1: src-size given.
pub fn copy_given(dst: u32, src: u32, cp_size: u8, src_size: u32) -> Event {
    copy_of_mode(Mode::Given, dst, src, cp_size, src_size)
}

/// A copy of mode 2: source ignored.
pub fn copy_ignored(dst: u32, src: u32, cp_size: u8) -> Event {
    copy_of_mode(Mode::Ignored, dst, src, cp_size, 0)
}

fn copy_of_mode(mode: Mode, dst: u32, src: u32, cp_size: u8, src_size: u32) -> Event {
    Event::Copy {
        dst: SharedAddress(dst),
        src: GlobalAddress(src),
        src_size,
        cp_size,
        mode,
        cache: Cache::Ca,
    }
}

pub fn wait(n: u32) -> Event {
    Event::Wait { n }
}

pub fn bulk_copy(dst: u32, src: u32, size: u32) -> Event {
    Event::BulkCopy { dst: GlobalAddress(dst), src: SharedAddress(src), size }
}

pub fn reduction(pair: Pair, dst: u32, src: u32, size: u32) -> Event {
    let (operation, element) = pair;
    Event::Reduction { dst: GlobalAddress(dst), src: SharedAddress(src), size, operation, element }
}

pub fn bulk_wait(n: u32) -> Event {
    Event::BulkWait { n }
}
