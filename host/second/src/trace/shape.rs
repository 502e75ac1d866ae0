//! The shape of a trace file: header, table and bodies (codes 2, 3 and 4), and
//! the reading of its events (codes 5, 6 and 7).

use super::{fields, Event, Trace, MOST_BYTES, MOST_EVENTS};
use crate::answer::{code, Refusal};

const HEADER: usize = 12;
const ENTRY: usize = 4;

/// A file whose shape is right: its memory lengths, and the kind and body of
/// each event, not yet read.
#[derive(Clone, Debug)]
pub struct Shape<'a> {
    pub global_length: u32,
    pub shared_length: u32,
    entries: Vec<Entry<'a>>,
}

#[derive(Clone, Copy, Debug)]
struct Entry<'a> {
    kind: u8,
    body: &'a [u8],
}

/// The shape of a file, or the first refusal of 2, 3 and 4: under 12 bytes,
/// then 3, then other shape faults, then 4.
pub fn shape(file: &[u8]) -> Result<Shape<'_>, Refusal> {
    if file.len() < HEADER {
        return Err(fault(format!(
            "the file has {} bytes; its header alone has 12",
            file.len()
        )));
    }
    let n = usize::from(half(file, 0));
    if n > MOST_EVENTS {
        let reason = format!("n is {n}; a file has at most 1,024 events");
        return Err(Refusal::bare(code::TOO_MANY_EVENTS, reason));
    }
    let reserved = half(file, 2);
    if reserved != 0 {
        return Err(fault(format!(
            "bytes 2 and 3 of the header hold {reserved}; they are zero in a right file"
        )));
    }
    let shape = Shape {
        global_length: fields::number(file, 4),
        shared_length: fields::number(file, 8),
        entries: entries(file, n)?,
    };
    memory_length("global", shape.global_length)?;
    memory_length("shared", shape.shared_length)?;
    Ok(shape)
}

/// The n entries of the table with their bodies: in event order, no gaps, and
/// nothing after them.
fn entries(file: &[u8], n: usize) -> Result<Vec<Entry<'_>>, Refusal> {
    let end = HEADER + ENTRY * n;
    let (table, mut bodies) = match (file.get(HEADER..end), file.get(end..)) {
        (Some(table), Some(bodies)) => (table, bodies),
        _ => {
            return Err(fault(format!(
                "the table of {n} entries ends at byte {end}; the file has {} bytes",
                file.len()
            )))
        }
    };
    let mut entries = Vec::new();
    for (event, entry) in table.chunks_exact(ENTRY).enumerate() {
        if entry[1] != 0 {
            return Err(fault(format!(
                "the second byte of entry {event} is {}; it is zero in a right file",
                entry[1]
            )));
        }
        let length = usize::from(half(entry, 2));
        let (body, rest) = match (bodies.get(..length), bodies.get(length..)) {
            (Some(body), Some(rest)) => (body, rest),
            _ => return Err(cut_body(event, length, bodies.len())),
        };
        let kind = entry[0];
        entries.push(Entry { kind, body });
        bodies = rest;
    }
    match bodies.len() {
        0 => Ok(entries),
        left => Err(fault(format!(
            "the file has {} bytes; header, table and bodies make {}",
            file.len(),
            file.len() - left
        ))),
    }
}

fn cut_body(event: usize, length: usize, left: usize) -> Refusal {
    fault(format!(
        "the body of event {event} has {length} bytes by the table; the file has {left} left for it"
    ))
}

fn memory_length(memory: &str, length: u32) -> Result<(), Refusal> {
    if length > MOST_BYTES {
        let reason = format!("{memory} length is {length}; a memory has at most 65,536 bytes");
        return Err(Refusal::bare(code::MEMORY_LENGTH, reason));
    }
    Ok(())
}

fn fault(reason: String) -> Refusal {
    Refusal::bare(code::SHAPE, reason)
}

/// Two bytes as a number; bytes past the end count as zero.
fn half(bytes: &[u8], at: usize) -> u16 {
    u16::from_le_bytes([fields::byte(bytes, at), fields::byte(bytes, at + 1)])
}

impl<'a> Shape<'a> {
    /// The number of events.
    pub fn len(&self) -> usize {
        self.entries.len()
    }

    /// Whether there are no events.
    pub fn is_empty(&self) -> bool {
        self.entries.is_empty()
    }

    /// The kind byte of an event; 0, an unknown kind, past the last event.
    pub fn kind(&self, event: usize) -> u8 {
        self.entries.get(event).map_or(0, |entry| entry.kind)
    }

    /// The body of an event; empty past the last event.
    pub fn body(&self, event: usize) -> &'a [u8] {
        self.entries.get(event).map_or(&[], |entry| entry.body)
    }

    /// The event itself, or the first refusal of 5, 6 and 7. Past the last
    /// event the kind is unknown.
    pub fn event(&self, event: usize) -> Result<Event, Refusal> {
        let kind = self.kind(event);
        let body = self.body(event);
        let (name, length) = fields::name_and_body_length(kind).ok_or_else(|| {
            let reason = format!("kind {kind} is unknown; kinds are 1 to 2, 16 to 19 and 32 to 35");
            Refusal::at(code::UNKNOWN_KIND, event, reason)
        })?;
        if body.len() != length {
            let reason = format!(
                "the body of kind {kind} ({name}) is {} bytes long; it should be {length}",
                body.len()
            );
            return Err(Refusal::at(code::BODY_LENGTH, event, reason));
        }
        fields::event(kind, body).map_err(|reason| Refusal::at(code::FIELD, event, reason))
    }
}

/// The whole file, or the first refusal of 2 to 7.
pub fn read(file: &[u8]) -> Result<Trace, Refusal> {
    let shape = shape(file)?;
    let events: Result<Vec<Event>, Refusal> =
        (0..shape.len()).map(|event| shape.event(event)).collect();
    Ok(Trace {
        global_length: shape.global_length,
        shared_length: shape.shared_length,
        events: events?,
    })
}
