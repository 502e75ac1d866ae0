//! Events read from their kinds and bodies (codes 5 to 9).

use super::accesses::{Access, Accesses, Element, Operation, Way};
use super::event::{Chain, Event};
use super::shape::Lengths;
use wrapper::Answer;

/// Why an event is refused by itself, in the order in which it is checked.
pub enum Fault {
    Kind,
    BodyLength,
    Field,
    Alignment,
    Range,
}

impl Fault {
    pub fn answer(self, event: u16) -> Answer {
        match self {
            Fault::Kind => Answer::UnknownKind { event },
            Fault::BodyLength => Answer::WrongBodyLength { event },
            Fault::Field => Answer::FieldNotAllowed { event },
            Fault::Alignment => Answer::Misaligned { event },
            Fault::Range => Answer::OutOfRange { event },
        }
    }
}

pub fn event(kind: u8, body: &[u8], lengths: Lengths) -> Result<Event, Fault> {
    match kind {
        1 => load(sized(body)?, lengths),
        2 => store(sized(body)?, lengths),
        16 => copy(sized(body)?, lengths),
        17 => sized::<0>(body).map(|_| Event::Commit(Chain::NonBulk)),
        18 => sized(body).map(|count| Event::Wait(Chain::NonBulk, u32::from_le_bytes(*count))),
        19 => sized::<0>(body).map(|_| Event::WaitAll),
        32 => bulk_copy(sized(body)?, lengths),
        33 => reduction(sized(body)?, lengths),
        34 => sized::<0>(body).map(|_| Event::Commit(Chain::Bulk)),
        35 => sized(body).map(|count| Event::Wait(Chain::Bulk, u32::from_le_bytes(*count))),
        _ => Err(Fault::Kind),
    }
}

/// The body, if it has the length that its kind's reader takes.
fn sized<const LENGTH: usize>(body: &[u8]) -> Result<&[u8; LENGTH], Fault> {
    body.try_into().map_err(|_| Fault::BodyLength)
}

fn load(body: &[u8; 8], lengths: Lengths) -> Result<Event, Fault> {
    thread(body, Way::Read, lengths)
}

fn store(body: &[u8; 24], lengths: Lengths) -> Result<Event, Fault> {
    let (access, value) = body.split_at(8);
    let past_size = value.get(usize::from(access[1])..).ok_or(Fault::Field)?;
    allowed(past_size.iter().all(|byte| *byte == 0))?;
    thread(sized(access)?, Way::Write, lengths)
}

fn thread(body: &[u8; 8], way: Way, lengths: Lengths) -> Result<Event, Fault> {
    let [space, size, zero, other_zero, address @ ..] = *body;
    allowed(space <= 1 && matches!(size, 1 | 2 | 4 | 8 | 16) && zero == 0 && other_zero == 0)?;
    let (address, size) = (u32::from_le_bytes(address), u32::from(size));
    aligned(address, size)?;
    Ok(Event::Thread(if space == 0 {
        Accesses {
            global: access(address, size, way, lengths.global)?,
            shared: Access::NONE,
        }
    } else {
        Accesses {
            global: Access::NONE,
            shared: access(address, size, way, lengths.shared)?,
        }
    }))
}

fn copy(body: &[u8; 16], lengths: Lengths) -> Result<Event, Fault> {
    let [destination, source, source_size] = three_words(body);
    let [.., size, mode, cache, zero] = *body;
    allowed(matches!((size, cache), (4 | 8 | 16, 0) | (16, 1)) && zero == 0)?;
    let size = u32::from(size);
    let read = match (mode, source_size) {
        (0, 0) => size,
        (1, _) if source_size <= size => source_size,
        (2, 0) => 0,
        _ => return Err(Fault::Field),
    };
    aligned(destination | source, size)?;
    let global = if read == 0 {
        Access::NONE
    } else {
        access(source, read, Way::Read, lengths.global)?
    };
    let shared = access(destination, size, Way::Write, lengths.shared)?;
    Ok(Event::Start(Chain::NonBulk, Accesses { global, shared }))
}

fn bulk_copy(body: &[u8; 12], lengths: Lengths) -> Result<Event, Fault> {
    bulk(three_words(body), Way::Write, lengths)
}

fn reduction(body: &[u8; 16], lengths: Lengths) -> Result<Event, Fault> {
    let [.., operation, element, zero, other_zero] = *body;
    allowed(zero == 0 && other_zero == 0)?;
    bulk(three_words(body), reduce(operation, element)?, lengths)
}

/// The valid pairs of an operation and a type.
fn reduce(operation: u8, element: u8) -> Result<Way, Fault> {
    let (operation, element) = match (operation, element) {
        (0, 0) => (Operation::And, Element::B32),
        (1, 0) => (Operation::Or, Element::B32),
        (2, 0) => (Operation::Xor, Element::B32),
        (3, 1) => (Operation::Add, Element::U32),
        (3, 2) => (Operation::Add, Element::S32),
        (4, 1) => (Operation::Min, Element::U32),
        (4, 2) => (Operation::Min, Element::S32),
        (5, 1) => (Operation::Max, Element::U32),
        (5, 2) => (Operation::Max, Element::S32),
        _ => return Err(Fault::Field),
    };
    Ok(Way::Reduce(operation, element))
}

fn bulk(words: [u32; 3], way: Way, lengths: Lengths) -> Result<Event, Fault> {
    let [destination, source, size] = words;
    allowed(size != 0 && size % 16 == 0)?;
    aligned(destination | source, 16)?;
    let accesses = Accesses {
        global: access(destination, size, way, lengths.global)?,
        shared: access(source, size, Way::Read, lengths.shared)?,
    };
    Ok(Event::Start(Chain::Bulk, accesses))
}

/// Destination, source and the size after them.
fn three_words(body: &[u8]) -> [u32; 3] {
    [0, 4, 8].map(|at| u32::from_le_bytes([body[at], body[at + 1], body[at + 2], body[at + 3]]))
}

fn allowed(fields: bool) -> Result<(), Fault> {
    if fields {
        Ok(())
    } else {
        Err(Fault::Field)
    }
}

/// Sizes are powers of two, so two addresses can be asked at once by the bits that either has.
fn aligned(addresses: u32, size: u32) -> Result<(), Fault> {
    if addresses & (size - 1) == 0 {
        Ok(())
    } else {
        Err(Fault::Alignment)
    }
}

/// The access to `size` bytes at `start`, if they lie inside the memory. Checked, as an address never wraps.
fn access(start: u32, size: u32, way: Way, memory_length: u32) -> Result<Access, Fault> {
    match start.checked_add(size) {
        Some(end) if end <= memory_length => Ok(Access { start, end, way }),
        _ => Err(Fault::Range),
    }
}
