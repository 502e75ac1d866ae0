//! Trace files and verdict sheets, byte for byte, as document 01 lays them out. They are not taken from `second` or `traces`,
//! so that a mistake in laying out a file shows.

pub const GLOBAL: u8 = 0;
pub const SHARED: u8 = 1;

pub const PLAIN: u8 = 0;
pub const GIVEN: u8 = 1;
pub const IGNORED: u8 = 2;

pub const ADD: u8 = 3;
pub const MIN: u8 = 4;
pub const MAX: u8 = 5;

pub const U32: u8 = 1;
pub const S32: u8 = 2;

/// An event: its kind and its body.
#[derive(Clone)]
pub struct Event {
    pub kind: u8,
    pub body: Vec<u8>,
}

/// The file of a list of events over memories of these lengths.
pub fn file(global: u32, shared: u32, events: &[Event]) -> Vec<u8> {
    let mut bytes = (events.len() as u32).to_le_bytes().to_vec();
    bytes.extend(global.to_le_bytes());
    bytes.extend(shared.to_le_bytes());
    for event in events {
        bytes.extend([event.kind, 0]);
        bytes.extend((event.body.len() as u16).to_le_bytes());
    }
    bytes.extend(events.iter().flat_map(|event| event.body.clone()));
    bytes
}

/// The sheet of an answer.
pub fn sheet(code: u16, event: u16, partner: u16, peak: u16) -> Vec<u8> {
    let numbers = [4, 8, event, partner, peak, code];
    numbers.into_iter().flat_map(u16::to_le_bytes).collect()
}

pub fn event(kind: u8, body: &[u8]) -> Event {
    let body = body.to_vec();
    Event { kind, body }
}

pub fn load(space: u8, size: u8, address: u32) -> Event {
    event(1, &thread(space, size, address))
}

pub fn store(space: u8, address: u32, value: &[u8]) -> Event {
    let mut body = thread(space, value.len() as u8, address);
    body.extend(value);
    body.resize(24, 0);
    event(2, &body)
}

fn thread(space: u8, size: u8, address: u32) -> Vec<u8> {
    let mut body = vec![space, size, 0, 0];
    body.extend(address.to_le_bytes());
    body
}

/// A plain copy.
pub fn copy(dst: u32, src: u32, cp_size: u8) -> Event {
    copy_with(dst, src, 0, [cp_size, PLAIN, 0, 0])
}

/// A copy whose src-size is given.
pub fn copy_part(dst: u32, src: u32, src_size: u32, cp_size: u8) -> Event {
    copy_with(dst, src, src_size, [cp_size, GIVEN, 0, 0])
}

/// A copy with these last four bytes: cp-size, mode, cache, zero.
pub fn copy_with(dst: u32, src: u32, src_size: u32, last: [u8; 4]) -> Event {
    let mut body = numbers(&[dst, src, src_size]);
    body.extend(last);
    event(16, &body)
}

pub fn commit() -> Event {
    event(17, &[])
}

pub fn wait(n: u32) -> Event {
    event(18, &n.to_le_bytes())
}

pub fn wait_all() -> Event {
    event(19, &[])
}

pub fn bulk_copy(dst: u32, src: u32, size: u32) -> Event {
    event(32, &numbers(&[dst, src, size]))
}

pub fn reduction(dst: u32, src: u32, size: u32, operation: u8, element: u8) -> Event {
    let mut body = numbers(&[dst, src, size]);
    body.extend([operation, element, 0, 0]);
    event(33, &body)
}

pub fn bulk_commit() -> Event {
    event(34, &[])
}

pub fn bulk_wait(n: u32) -> Event {
    event(35, &n.to_le_bytes())
}

fn numbers(numbers: &[u32]) -> Vec<u8> {
    numbers.iter().flat_map(|n| n.to_le_bytes()).collect()
}
