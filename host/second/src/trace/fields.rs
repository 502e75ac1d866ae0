//! From a body to its event: the fields of each kind and what is allowed in
//! them (code 7).

use super::{Cache, ElementType, Event, GlobalAddress, Mode, Operation, Place, SharedAddress};

/// The event of a body whose length is the kind's, or the reason why a field
/// is not allowed.
pub fn event(kind: u8, body: &[u8]) -> Result<Event, String> {
    match kind {
        1..=2 => thread_event(kind, body),
        16..=19 => non_bulk_event(kind, body),
        32..=35 => bulk_event(kind, body),
        _ => Err(format!("kind {kind} has no fields")),
    }
}

/// The name of a kind and the length of its body; none for an unknown kind.
pub fn name_and_body_length(kind: u8) -> Option<(&'static str, usize)> {
    match kind {
        1 => Some(("load", 8)),
        2 => Some(("store", 24)),
        16 => Some(("copy", 16)),
        17 => Some(("commit", 0)),
        18 => Some(("wait", 4)),
        19 => Some(("wait-all", 0)),
        32 => Some(("bulk copy", 12)),
        33 => Some(("bulk reduction", 16)),
        34 => Some(("bulk commit", 0)),
        35 => Some(("bulk wait", 4)),
        _ => None,
    }
}

fn thread_event(kind: u8, body: &[u8]) -> Result<Event, String> {
    let address = number(body, 4);
    let place = match byte(body, 0) {
        0 => Place::Global(GlobalAddress(address)),
        1 => Place::Shared(SharedAddress(address)),
        space => return Err(format!("space is {space}; 0 is global, 1 is shared")),
    };
    let size = byte(body, 1);
    if !matches!(size, 1 | 2 | 4 | 8 | 16) {
        return Err(format!("size is {size}; a thread size is 1, 2, 4, 8 or 16"));
    }
    zeros(body, &[2, 3])?;
    if kind == 1 {
        return Ok(Event::Load { place, size });
    }
    let value = value(body, size)?;
    Ok(Event::Store { place, size, value })
}

/// The 16 value bytes of a store, those past size zero.
fn value(body: &[u8], size: u8) -> Result<[u8; 16], String> {
    let mut value = [0; 16];
    for (i, into) in value.iter_mut().enumerate() {
        *into = byte(body, 8 + i);
        if i >= usize::from(size) && *into != 0 {
            return Err(format!(
                "value byte {i} is {into}; those past size, which is {size}, are zero"
            ));
        }
    }
    Ok(value)
}

fn non_bulk_event(kind: u8, body: &[u8]) -> Result<Event, String> {
    match kind {
        16 => copy(body),
        17 => Ok(Event::Commit),
        18 => Ok(Event::Wait { n: number(body, 0) }),
        _ => Ok(Event::WaitAll),
    }
}

fn copy(body: &[u8]) -> Result<Event, String> {
    let cp_size = byte(body, 12);
    if !matches!(cp_size, 4 | 8 | 16) {
        return Err(format!("cp-size is {cp_size}; it is 4, 8 or 16"));
    }
    let src_size = number(body, 8);
    let mode = mode(byte(body, 13), src_size, cp_size)?;
    let cache = cache(byte(body, 14), cp_size)?;
    zeros(body, &[15])?;
    Ok(Event::Copy {
        dst: SharedAddress(number(body, 0)),
        src: GlobalAddress(number(body, 4)),
        src_size,
        cp_size,
        mode,
        cache,
    })
}

/// The mode, with the src-size field that goes with it.
fn mode(mode: u8, src_size: u32, cp_size: u8) -> Result<Mode, String> {
    match mode {
        0 | 2 if src_size != 0 => Err(format!(
            "src-size is {src_size}; in mode {mode} the field is zero"
        )),
        1 if src_size > u32::from(cp_size) => Err(format!(
            "src-size is {src_size}; it is at most cp-size, which is {cp_size}"
        )),
        0 => Ok(Mode::Plain),
        1 => Ok(Mode::Given),
        2 => Ok(Mode::Ignored),
        _ => Err(format!(
            "mode is {mode}; 0 is plain, 1 src-size given, 2 source ignored"
        )),
    }
}

fn cache(cache: u8, cp_size: u8) -> Result<Cache, String> {
    match cache {
        0 => Ok(Cache::Ca),
        1 if cp_size == 16 => Ok(Cache::Cg),
        1 => Err(format!(
            "cache is 1 (.cg); it goes only with cp-size 16, and cp-size is {cp_size}"
        )),
        _ => Err(format!("cache is {cache}; 0 is .ca, 1 is .cg")),
    }
}

fn bulk_event(kind: u8, body: &[u8]) -> Result<Event, String> {
    match kind {
        32 => bulk_copy(body),
        33 => reduction(body),
        34 => Ok(Event::BulkCommit),
        _ => Ok(Event::BulkWait { n: number(body, 0) }),
    }
}

fn bulk_copy(body: &[u8]) -> Result<Event, String> {
    Ok(Event::BulkCopy {
        dst: GlobalAddress(number(body, 0)),
        src: SharedAddress(number(body, 4)),
        size: bulk_size(body)?,
    })
}

fn reduction(body: &[u8]) -> Result<Event, String> {
    let size = bulk_size(body)?;
    let operation = operation(byte(body, 12))?;
    let element = element(byte(body, 13))?;
    let bitwise = matches!(operation, Operation::And | Operation::Or | Operation::Xor);
    if bitwise != (element == ElementType::B32) {
        return Err(format!(
            "operation is {operation} and type is {element}; \
             and, or, xor go with b32, and add, min, max with u32 or s32"
        ));
    }
    zeros(body, &[14, 15])?;
    Ok(Event::Reduction {
        dst: GlobalAddress(number(body, 0)),
        src: SharedAddress(number(body, 4)),
        size,
        operation,
        element,
    })
}

fn bulk_size(body: &[u8]) -> Result<u32, String> {
    let size = number(body, 8);
    if size == 0 || size % 16 != 0 {
        return Err(format!(
            "size is {size}; a bulk size is a multiple of 16 and not zero"
        ));
    }
    Ok(size)
}

fn operation(operation: u8) -> Result<Operation, String> {
    match operation {
        0 => Ok(Operation::And),
        1 => Ok(Operation::Or),
        2 => Ok(Operation::Xor),
        3 => Ok(Operation::Add),
        4 => Ok(Operation::Min),
        5 => Ok(Operation::Max),
        _ => Err(format!(
            "operation is {operation}; 0 is and, 1 or, 2 xor, 3 add, 4 min, 5 max"
        )),
    }
}

fn element(element: u8) -> Result<ElementType, String> {
    match element {
        0 => Ok(ElementType::B32),
        1 => Ok(ElementType::U32),
        2 => Ok(ElementType::S32),
        _ => Err(format!("type is {element}; 0 is b32, 1 u32, 2 s32")),
    }
}

/// The bytes of a body that have to be zero.
fn zeros(body: &[u8], places: &[usize]) -> Result<(), String> {
    for &place in places {
        let value = byte(body, place);
        if value != 0 {
            return Err(format!("body byte {place} is {value}; it has to be zero"));
        }
    }
    Ok(())
}

/// One byte; bytes past the end count as zero.
pub fn byte(bytes: &[u8], at: usize) -> u8 {
    bytes.get(at).copied().unwrap_or(0)
}

/// Four bytes as a number, little-endian; bytes past the end count as zero.
pub fn number(bytes: &[u8], at: usize) -> u32 {
    let mut four = [0; 4];
    for (into, from) in four.iter_mut().zip(bytes.iter().skip(at)) {
        *into = *from;
    }
    u32::from_le_bytes(four)
}
