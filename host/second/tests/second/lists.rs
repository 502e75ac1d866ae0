//! Short ways to write events, files and answers.

use second::trace::{
    Cache, ElementType, Event, GlobalAddress, Mode, Operation, Place, SharedAddress, Trace,
};
use second::Answer;

pub fn file(global_length: u32, shared_length: u32, events: &[Event]) -> Vec<u8> {
    Trace {
        global_length,
        shared_length,
        events: events.to_vec(),
    }
    .write()
}

/// The answer to a list over memories of 64 bytes each.
pub fn judged(events: &[Event]) -> Answer {
    second::judge(&file(64, 64, events))
}

pub fn accepted(event: u16, peak: u16) -> Answer {
    Answer::accepted(event, peak)
}

pub fn clash(event: u16, partner: u16) -> Answer {
    Answer::clash(event, partner)
}

pub fn refused(code: u16, event: u16) -> Answer {
    Answer::at(code, event)
}

pub fn global(address: u32) -> Place {
    Place::Global(GlobalAddress(address))
}

pub fn shared(address: u32) -> Place {
    Place::Shared(SharedAddress(address))
}

pub fn load(place: Place, size: u8) -> Event {
    Event::Load { place, size }
}

/// A store of `size` bytes, each of them `byte`.
pub fn store(place: Place, size: u8, byte: u8) -> Event {
    let mut value = [0; 16];
    for into in value.iter_mut().take(size.into()) {
        *into = byte;
    }
    Event::Store { place, size, value }
}

pub fn copy_in_mode(dst: u32, src: u32, cp_size: u8, mode: Mode, src_size: u32) -> Event {
    Event::Copy {
        dst: SharedAddress(dst),
        src: GlobalAddress(src),
        src_size,
        cp_size,
        mode,
        cache: Cache::Ca,
    }
}

pub fn copy(dst: u32, src: u32, cp_size: u8) -> Event {
    copy_in_mode(dst, src, cp_size, Mode::Plain, 0)
}

pub fn bulk_copy(dst: u32, src: u32, size: u32) -> Event {
    Event::BulkCopy {
        dst: GlobalAddress(dst),
        src: SharedAddress(src),
        size,
    }
}

pub fn reduction(
    operation: Operation,
    element: ElementType,
    dst: u32,
    src: u32,
    size: u32,
) -> Event {
    Event::Reduction {
        dst: GlobalAddress(dst),
        src: SharedAddress(src),
        size,
        operation,
        element,
    }
}

pub fn add(dst: u32, src: u32) -> Event {
    reduction(Operation::Add, ElementType::U32, dst, src, 16)
}

pub fn wait(n: u32) -> Event {
    Event::Wait { n }
}

pub fn bulk_wait(n: u32) -> Event {
    Event::BulkWait { n }
}
