//! From events to the bytes of a trace file: table first, then bodies.

use super::{Cache, ElementType, Event, Mode, Operation, Place, Space, Trace};

/// The most events the header's two bytes can count.
const MOST_COUNTED: usize = 65_535;

impl Trace {
    /// The file of this trace. Nothing is checked: lengths and events are
    /// written as they are, up to the 65,535 events a header can count.
    pub fn write(&self) -> Vec<u8> {
        let counted = self.events.len().min(MOST_COUNTED);
        // Two bytes hold the number of events, and the two after them are zero.
        let mut file = (counted as u32).to_le_bytes().to_vec();
        file.extend(self.global_length.to_le_bytes());
        file.extend(self.shared_length.to_le_bytes());
        let mut bodies = Vec::new();
        for event in self.events.iter().take(counted) {
            let body = event.body();
            // The longest body has 24 bytes, so the high byte is always zero.
            file.extend([event.kind(), 0, body.len() as u8, 0]);
            bodies.extend(body);
        }
        file.extend(bodies);
        file
    }
}

impl Event {
    /// The body of the event, as the table of kinds lays it out.
    pub fn body(&self) -> Vec<u8> {
        match *self {
            Event::Load { place, size } => thread_body(place, size),
            Event::Store { place, size, value } => {
                let mut body = thread_body(place, size);
                body.extend(value);
                body
            }
            Event::Copy {
                dst,
                src,
                src_size,
                cp_size,
                mode,
                cache,
            } => {
                let mut body = three_numbers(dst.0, src.0, src_size);
                body.extend([cp_size, mode.number(), cache.number(), 0]);
                body
            }
            Event::Wait { n } | Event::BulkWait { n } => n.to_le_bytes().to_vec(),
            Event::BulkCopy { dst, src, size } => three_numbers(dst.0, src.0, size),
            Event::Reduction {
                dst,
                src,
                size,
                operation,
                element,
            } => {
                let mut body = three_numbers(dst.0, src.0, size);
                body.extend([operation.number(), element.number(), 0, 0]);
                body
            }
            Event::Commit | Event::WaitAll | Event::BulkCommit => Vec::new(),
        }
    }
}

/// Space, size, two zeros, address.
fn thread_body(place: Place, size: u8) -> Vec<u8> {
    let mut body = vec![place.space().number(), size, 0, 0];
    body.extend(place.address().to_le_bytes());
    body
}

fn three_numbers(first: u32, second: u32, third: u32) -> Vec<u8> {
    [first, second, third]
        .iter()
        .flat_map(|number| number.to_le_bytes())
        .collect()
}

impl Place {
    /// The memory of the place.
    pub fn space(self) -> Space {
        match self {
            Place::Global(_) => Space::Global,
            Place::Shared(_) => Space::Shared,
        }
    }

    /// The address alone, to be written or checked beside its space.
    pub fn address(self) -> u32 {
        match self {
            Place::Global(address) => address.0,
            Place::Shared(address) => address.0,
        }
    }
}

impl Space {
    fn number(self) -> u8 {
        match self {
            Space::Global => 0,
            Space::Shared => 1,
        }
    }
}

impl Mode {
    fn number(self) -> u8 {
        match self {
            Mode::Plain => 0,
            Mode::Given => 1,
            Mode::Ignored => 2,
        }
    }
}

impl Cache {
    fn number(self) -> u8 {
        match self {
            Cache::Ca => 0,
            Cache::Cg => 1,
        }
    }
}

impl Operation {
    fn number(self) -> u8 {
        match self {
            Operation::And => 0,
            Operation::Or => 1,
            Operation::Xor => 2,
            Operation::Add => 3,
            Operation::Min => 4,
            Operation::Max => 5,
        }
    }
}

impl ElementType {
    fn number(self) -> u8 {
        match self {
            ElementType::B32 => 0,
            ElementType::U32 => 1,
            ElementType::S32 => 2,
        }
    }
}
