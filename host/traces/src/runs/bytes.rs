//! Bytes in few words.

/// The bytes of a load record and of both memories.
#[derive(Clone, Debug)]
pub struct Bytes {
    pub loads: Vec<u8>,
    pub global: Vec<u8>,
    pub shared: Vec<u8>,
}

/// A load record and both memories.
pub fn bytes(loads: Vec<u8>, global: Vec<u8>, shared: Vec<u8>) -> Bytes {
    Bytes { loads, global, shared }
}

/// So many bytes counting up from the first.
pub fn count(first: u8, length: u8) -> Vec<u8> {
    (0..length).map(|i| first.wrapping_add(i)).collect()
}

/// So many times one byte.
pub fn all(byte: u8, length: usize) -> Vec<u8> {
    vec![byte; length]
}

/// One part after the other.
pub fn parts(parts: &[Vec<u8>]) -> Vec<u8> {
    parts.concat()
}

/// The bytes of 4-byte elements, the low byte of each first.
pub fn elements(elements: [u32; 4]) -> Vec<u8> {
    elements.iter().flat_map(|element| element.to_le_bytes()).collect()
}
