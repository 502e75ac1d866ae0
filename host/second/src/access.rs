//! The bytes an event reads and writes, and the checks of alignment and range
//! (codes 8 and 9).

use crate::answer::code;
use crate::trace::{Event, GlobalAddress, Mode, SharedAddress, Space};

/// Bytes of one memory, one after the other.
#[derive(Clone, Copy, Debug, PartialEq, Eq)]
pub struct Range {
    pub space: Space,
    pub start: u64,
    pub length: u64,
}

impl Range {
    /// The byte just past the last one. It never wraps.
    pub fn end(&self) -> u64 {
        self.start.saturating_add(self.length)
    }
}

/// One access of an event: it reads the bytes, or writes them.
#[derive(Clone, Copy, Debug, PartialEq, Eq)]
pub struct Access {
    pub range: Range,
    pub writes: bool,
}

/// The accesses of an event, the source before the destination. None is empty:
/// a source of which no byte is read is no access.
pub fn accesses(event: &Event) -> Vec<Access> {
    let mut accesses = match *event {
        Event::Load { place, size } => vec![read(place.space(), place.address(), size.into())],
        Event::Store { place, size, .. } => {
            vec![write(place.space(), place.address(), size.into())]
        }
        Event::Copy {
            dst,
            src,
            src_size,
            cp_size,
            mode,
            ..
        } => vec![
            read(Space::Global, src.0, bytes_read(mode, src_size, cp_size)),
            write(Space::Shared, dst.0, cp_size.into()),
        ],
        Event::BulkCopy { dst, src, size } => from_shared_to_global(src, dst, size),
        // A reduction reads its destination too; the writing access says enough,
        // for whatever clashes with the reading of a byte clashes with its writing.
        Event::Reduction { dst, src, size, .. } => from_shared_to_global(src, dst, size),
        Event::Commit
        | Event::Wait { .. }
        | Event::WaitAll
        | Event::BulkCommit
        | Event::BulkWait { .. } => Vec::new(),
    };
    accesses.retain(|access| access.range.length > 0);
    accesses
}

/// A copy reads its first cp-size bytes of source (plain), src-size bytes
/// (src-size given) or none (source ignored).
pub fn bytes_read(mode: Mode, src_size: u32, cp_size: u8) -> u32 {
    match mode {
        Mode::Plain => cp_size.into(),
        Mode::Given => src_size,
        Mode::Ignored => 0,
    }
}

fn from_shared_to_global(src: SharedAddress, dst: GlobalAddress, size: u32) -> Vec<Access> {
    vec![
        read(Space::Shared, src.0, size),
        write(Space::Global, dst.0, size),
    ]
}

fn read(space: Space, start: u32, length: u32) -> Access {
    access(space, start, length, false)
}

fn write(space: Space, start: u32, length: u32) -> Access {
    access(space, start, length, true)
}

fn access(space: Space, start: u32, length: u32, writes: bool) -> Access {
    let range = Range {
        space,
        start: start.into(),
        length: length.into(),
    };
    Access { range, writes }
}

/// Alignment, then range: the code and the reason of the first that fails.
pub fn check(event: &Event, global_length: u32, shared_length: u32) -> Result<(), (u16, String)> {
    check_alignment(event).map_err(|reason| (code::ALIGNMENT, reason))?;
    check_range(event, global_length, shared_length).map_err(|reason| (code::RANGE, reason))
}

fn check_alignment(event: &Event) -> Result<(), String> {
    match *event {
        Event::Load { place, size } | Event::Store { place, size, .. } => {
            aligned(place.space(), place.address(), size.into())
        }
        // Both ends whatever the mode, even where no source byte is read.
        Event::Copy {
            dst, src, cp_size, ..
        } => {
            aligned(Space::Shared, dst.0, cp_size.into())?;
            aligned(Space::Global, src.0, cp_size.into())
        }
        Event::BulkCopy { dst, src, .. } | Event::Reduction { dst, src, .. } => {
            aligned(Space::Global, dst.0, 16)?;
            aligned(Space::Shared, src.0, 16)
        }
        Event::Commit
        | Event::Wait { .. }
        | Event::WaitAll
        | Event::BulkCommit
        | Event::BulkWait { .. } => Ok(()),
    }
}

fn aligned(space: Space, address: u32, alignment: u32) -> Result<(), String> {
    match address.checked_rem(alignment) {
        Some(0) => Ok(()),
        // An alignment of zero, which no field allows, is refused too.
        _ => Err(format!(
            "{space} address {address} is not a multiple of {alignment}"
        )),
    }
}

/// Every byte read or written lies inside its memory.
fn check_range(event: &Event, global_length: u32, shared_length: u32) -> Result<(), String> {
    for access in accesses(event) {
        let Range { space, start, .. } = access.range;
        let memory = match space {
            Space::Global => global_length,
            Space::Shared => shared_length,
        };
        let end = access.range.end();
        if end > u64::from(memory) {
            let verb = if access.writes { "writes" } else { "reads" };
            let last = end.saturating_sub(1);
            return Err(format!(
                "the event {verb} {space} bytes {start} to {last}; \
                 {space} memory has {memory} bytes"
            ));
        }
    }
    Ok(())
}
