//! Trace files, written event by event.

/// An event as a file holds it.
pub struct Event {
    pub kind: u8,
    pub body: Vec<u8>,
}

/// The file of these events over memories of these lengths.
pub fn file(global_length: u32, shared_length: u32, events: &[Event]) -> Vec<u8> {
    let mut file = Vec::new();
    file.extend((events.len() as u32).to_le_bytes());
    file.extend(global_length.to_le_bytes());
    file.extend(shared_length.to_le_bytes());
    for event in events {
        let [low, high] = (event.body.len() as u16).to_le_bytes();
        file.extend([event.kind, 0, low, high]);
    }
    for event in events {
        file.extend(&event.body);
    }
    file
}

/// A plain copy of 16 bytes from global to shared memory.
pub fn copy(destination: u32, source: u32) -> Event {
    let words = [destination, source, 0].map(u32::to_le_bytes);
    let body = [words.concat(), vec![16, 0, 0, 0]].concat();
    Event { kind: 16, body }
}

/// A bulk copy of 16 bytes from shared to global memory.
pub fn bulk_copy(destination: u32, source: u32) -> Event {
    let body = [destination, source, 16].map(u32::to_le_bytes).concat();
    Event { kind: 32, body }
}

pub fn commit() -> Event {
    let body = Vec::new();
    Event { kind: 17, body }
}

/// A wait for all groups but the newest.
pub fn wait(newest: u32) -> Event {
    let body = newest.to_le_bytes().to_vec();
    Event { kind: 18, body }
}

/// A load of 16 bytes of shared memory.
pub fn load(address: u32) -> Event {
    let body = [[1, 16, 0, 0], address.to_le_bytes()].concat();
    Event { kind: 1, body }
}
