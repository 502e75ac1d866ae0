//! The parts of the comparison, each with the sentence of document 01 or of the three conditions that it tries.

mod files;
mod orders;
mod recording;
mod runs;
mod sheets;
mod table;
mod waiting;

use crate::comparison::{Comparison, Difference};

pub struct Part {
    pub name: &'static str,
    pub shows: &'static str,
    pub compare: fn(&mut Comparison<'_>) -> Result<(), Difference>,
}

impl Part {
    /// A number of the part's own, so that it draws the same files with the other parts and without them.
    pub fn seed(&self) -> u64 {
        let digest =
            |sum: u64, byte: u8| (sum ^ u64::from(byte)).wrapping_mul(0x0000_0100_0000_01b3);
        self.name.bytes().fold(0xcbf2_9ce4_8422_2325, digest)
    }
}

pub const PARTS: [Part; 7] = [
    Part {
        name: "table",
        shows: "document 01's traces and runs, each with the answer worked out by hand",
        compare: table::compare,
    },
    Part {
        name: "files",
        shows: "generated files: accepted, refused, damaged in every field, cut at every byte, too long",
        compare: files::compare,
    },
    Part {
        name: "runs",
        shows: "runs over random memories and load records, refusals included",
        compare: runs::compare,
    },
    Part {
        name: "orders",
        shows: "short lists, by all permitted orders: clashes, and equal bytes in every order",
        compare: orders::compare,
    },
    Part {
        name: "waiting",
        shows: "condition 3: waits added and lowered in accepted lists keep answer and bytes",
        compare: waiting::compare,
    },
    Part {
        name: "recording",
        shows: "condition 3: events after a refusal pardon nothing",
        compare: recording::compare,
    },
    Part {
        name: "sheets",
        shows: "sheets as they are written, cut at every byte, and any 12 bytes",
        compare: sheets::compare,
    },
];
