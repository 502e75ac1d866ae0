//! The bytes of a trace file, and the small edits that make a file which no
//! list of events writes. An edit outside the file changes nothing.

use crate::row::{row, Row};
use second::trace::{Event, Trace};
use second::Answer;

/// The lengths of the two memories, as a header names them.
#[derive(Clone, Copy, Debug)]
pub struct Memories {
    global_length: u32,
    shared_length: u32,
}

/// Memories of 16 bytes each, as in the document's one file in full.
pub const OF_16: Memories = memories(16, 16);

/// Memories of these lengths.
pub const fn memories(global_length: u32, shared_length: u32) -> Memories {
    Memories { global_length, shared_length }
}

impl Memories {
    /// The file of these events.
    pub fn file(self, events: &[Event]) -> File {
        let trace = Trace {
            global_length: self.global_length,
            shared_length: self.shared_length,
            events: events.to_vec(),
        };
        File(trace.write())
    }

    /// One row for each name, list of events and answer.
    pub fn rows(self, table: &[(&str, &[Event], Answer)]) -> Vec<Row> {
        table.iter().map(|(name, events, answer)| row(name, self.file(events), *answer)).collect()
    }
}

/// One row for each name, file and answer.
pub fn rows(table: Vec<(&str, File, Answer)>) -> Vec<Row> {
    table.into_iter().map(|(name, file, answer)| row(name, file, answer)).collect()
}

const HEADER: usize = 12;
const ENTRY: usize = 4;

/// The bytes of a trace file.
#[derive(Clone, Debug)]
pub struct File(pub Vec<u8>);

impl File {
    /// The file with one byte replaced.
    pub fn with_byte(mut self, at: usize, value: u8) -> File {
        if let Some(byte) = self.0.get_mut(at) {
            *byte = value;
        }
        self
    }

    /// The file with another n in its header.
    pub fn with_count(self, n: u16) -> File {
        self.with_half(0, n)
    }

    /// The file with another kind in the entry of an event.
    pub fn with_kind(self, event: usize, kind: u8) -> File {
        self.with_byte(entry(event), kind)
    }

    /// The file with another zero byte in the entry of an event.
    pub fn with_entry_zero(self, event: usize, value: u8) -> File {
        self.with_byte(entry(event) + 1, value)
    }

    /// The file with another body length in the table, its bodies as they are.
    pub fn with_table_length(self, event: usize, length: u16) -> File {
        self.with_half(entry(event) + 2, length)
    }

    /// The file with the body of an event cut or lengthened by zeros, and its
    /// body length in the table to match.
    pub fn with_body_length(self, event: usize, length: u16) -> File {
        let start = self.body(event);
        let end = start + self.half(entry(event) + 2);
        let mut file = self.with_table_length(event, length);
        let mut body: Vec<u8> = file.0.drain(start..end).collect();
        body.resize(usize::from(length), 0);
        file.0.splice(start..start, body);
        file
    }

    /// The file with one byte of the body of an event replaced.
    pub fn with_body_byte(self, event: usize, at: usize, value: u8) -> File {
        let start = self.body(event);
        self.with_byte(start + at, value)
    }

    /// The first bytes of the file.
    pub fn cut_to(mut self, length: usize) -> File {
        self.0.truncate(length);
        self
    }

    /// The file without its last byte.
    pub fn one_byte_short(mut self) -> File {
        self.0.pop();
        self
    }

    /// The file and a zero byte.
    pub fn one_byte_long(mut self) -> File {
        self.0.push(0);
        self
    }

    fn with_half(self, at: usize, value: u16) -> File {
        let [low, high] = value.to_le_bytes();
        self.with_byte(at, low).with_byte(at + 1, high)
    }

    fn half(&self, at: usize) -> usize {
        let byte = |at: usize| self.0.get(at).copied().unwrap_or(0);
        usize::from(u16::from_le_bytes([byte(at), byte(at + 1)]))
    }

    /// Where the body of an event starts.
    fn body(&self, event: usize) -> usize {
        let before: usize = (0..event).map(|event| self.half(entry(event) + 2)).sum();
        entry(self.half(0)) + before
    }
}

/// Where the entry of an event starts; for n, where the bodies start.
fn entry(event: usize) -> usize {
    HEADER + ENTRY * event
}

#[cfg(test)]
mod tests {
    use super::*;
    use crate::events::{copy, load_shared, WAIT_ALL};

    /// Bodies of 16, 0 and 8 bytes, from byte 24 on.
    fn full() -> File {
        OF_16.file(&[copy(0, 0, 4), WAIT_ALL, load_shared(0, 4)])
    }

    /// The places at which two files differ.
    fn changed(file: File) -> Vec<usize> {
        let (full, file) = (full().0, file.0);
        (0..full.len()).filter(|&at| full.get(at) != file.get(at)).collect()
    }

    #[test]
    fn an_edit_changes_its_bytes_alone() {
        assert_eq!(changed(full().with_count(0x0102)), [0, 1]);
        assert_eq!(changed(full().with_kind(1, 3)), [16]);
        assert_eq!(changed(full().with_entry_zero(2, 1)), [21]);
        assert_eq!(changed(full().with_table_length(0, 0x0102)), [14, 15]);
        assert_eq!(changed(full().with_body_byte(0, 13, 3)), [37]);
        assert_eq!(changed(full().with_body_byte(2, 7, 1)), [47]);
    }

    #[test]
    fn a_body_is_cut_or_lengthened_in_place() {
        let longer = full().with_body_length(0, 17).0;
        let shorter = full().with_body_length(2, 7).0;
        let (table, bodies) = (full().0[..24].to_vec(), full().0[24..].to_vec());
        let lengthened = [&bodies[..16], &[0], &bodies[16..]].concat();
        assert_eq!(longer, [File(table.clone()).with_byte(14, 17).0, lengthened].concat());
        assert_eq!(shorter, [File(table).with_byte(22, 7).0, bodies[..23].to_vec()].concat());
    }
}
