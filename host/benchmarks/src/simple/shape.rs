//! The shape of a trace file: its header, its table, and the bodies after that (codes 2 to 4).

use wrapper::Answer;

const HEADER: usize = 12;
const ENTRY: usize = 4;
const MOST_EVENTS: u16 = 1_024;
const LONGEST_MEMORY: u32 = 65_536;

/// The lengths of the two memories.
#[derive(Clone, Copy)]
pub struct Lengths {
    pub global: u32,
    pub shared: u32,
}

/// A file whose shape is right.
pub struct Shape<'a> {
    pub count: u16,
    pub lengths: Lengths,
    table: &'a [u8],
    bodies: &'a [u8],
}

impl<'a> Shape<'a> {
    pub fn read(file: &'a [u8]) -> Result<Shape<'a>, Answer> {
        if file.len() < HEADER {
            return Err(Answer::WrongShape);
        }
        let (header, rest) = file.split_at(HEADER);
        let count = half(header, 0);
        if count > MOST_EVENTS {
            return Err(Answer::TooManyEvents);
        }
        let table_length = ENTRY * usize::from(count);
        if half(header, 2) != 0 || rest.len() < table_length {
            return Err(Answer::WrongShape);
        }
        let (table, bodies) = rest.split_at(table_length);
        if !is_table_of(table, bodies.len()) {
            return Err(Answer::WrongShape);
        }
        let lengths = Lengths {
            global: word(header, 4),
            shared: word(header, 8),
        };
        if lengths.global > LONGEST_MEMORY || lengths.shared > LONGEST_MEMORY {
            return Err(Answer::WrongMemoryLength);
        }
        Ok(Shape {
            count,
            lengths,
            table,
            bodies,
        })
    }

    /// The kind and the body of each event in turn.
    pub fn events(&self) -> impl Iterator<Item = (u8, &'a [u8])> + 'a {
        let mut bodies = self.bodies;
        self.table.chunks_exact(ENTRY).map(move |entry| {
            let (body, rest) = bodies.split_at(body_length(entry));
            bodies = rest;
            (entry[0], body)
        })
    }
}

/// Whether the zero bytes of the entries are zero and their body lengths make up the bodies exactly.
fn is_table_of(table: &[u8], bodies_length: usize) -> bool {
    let mut total = 0;
    for entry in table.chunks_exact(ENTRY) {
        if entry[1] != 0 {
            return false;
        }
        total += body_length(entry);
    }
    total == bodies_length
}

fn body_length(entry: &[u8]) -> usize {
    usize::from(half(entry, 2))
}

fn half(bytes: &[u8], at: usize) -> u16 {
    u16::from_le_bytes([bytes[at], bytes[at + 1]])
}

fn word(bytes: &[u8], at: usize) -> u32 {
    u32::from_le_bytes([bytes[at], bytes[at + 1], bytes[at + 2], bytes[at + 3]])
}
