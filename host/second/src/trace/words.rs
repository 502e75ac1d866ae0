//! Events in words, for a person to read.

use super::{
    Cache, ElementType, Event, GlobalAddress, Mode, Operation, Place, SharedAddress, Space,
};
use std::fmt;

impl fmt::Display for Event {
    fn fmt(&self, f: &mut fmt::Formatter<'_>) -> fmt::Result {
        match *self {
            Event::Load { place, size } => write!(f, "load of {} at {place}", bytes(size)),
            Event::Store { place, size, .. } => write!(f, "store of {} at {place}", bytes(size)),
            Event::Copy {
                dst,
                src,
                src_size,
                cp_size,
                mode,
                cache,
            } => {
                f.write_str(&copy(mode, src_size, cp_size, src, dst))?;
                f.write_str(if cache == Cache::Cg { ", .cg" } else { "" })
            }
            Event::Commit => write!(f, "commit"),
            Event::Wait { n } => write!(f, "wait {n}"),
            Event::WaitAll => write!(f, "wait-all"),
            Event::BulkCopy { dst, src, size } => {
                write!(f, "bulk copy of {} from {src} to {dst}", bytes(size))
            }
            Event::Reduction {
                dst,
                src,
                size,
                operation,
                element,
            } => {
                let size = bytes(size);
                write!(
                    f,
                    "bulk reduction ({operation}, {element}) of {size} at {src} into {dst}"
                )
            }
            Event::BulkCommit => write!(f, "bulk commit"),
            Event::BulkWait { n } => write!(f, "bulk wait {n}"),
        }
    }
}

fn copy(mode: Mode, src_size: u32, cp_size: u8, src: GlobalAddress, dst: SharedAddress) -> String {
    let all = bytes(cp_size);
    match mode {
        Mode::Plain => format!("copy of {all} from {src} to {dst}"),
        Mode::Ignored => format!("copy of {all}, all zero, to {dst} ({src} ignored)"),
        Mode::Given => {
            let others = match u32::from(cp_size).saturating_sub(src_size) {
                0 => String::new(),
                1 => String::from(" (the other byte zero)"),
                others => format!(" (the other {} zero)", bytes(others)),
            };
            format!("copy of {src_size} of {all} from {src} to {dst}{others}")
        }
    }
}

/// A number of bytes in words.
fn bytes(number: impl Into<u32>) -> String {
    match number.into() {
        1 => String::from("1 byte"),
        number => format!("{number} bytes"),
    }
}

impl fmt::Display for Place {
    fn fmt(&self, f: &mut fmt::Formatter<'_>) -> fmt::Result {
        match self {
            Place::Global(address) => address.fmt(f),
            Place::Shared(address) => address.fmt(f),
        }
    }
}

impl fmt::Display for GlobalAddress {
    fn fmt(&self, f: &mut fmt::Formatter<'_>) -> fmt::Result {
        write!(f, "global {}", self.0)
    }
}

impl fmt::Display for SharedAddress {
    fn fmt(&self, f: &mut fmt::Formatter<'_>) -> fmt::Result {
        write!(f, "shared {}", self.0)
    }
}

impl fmt::Display for Space {
    fn fmt(&self, f: &mut fmt::Formatter<'_>) -> fmt::Result {
        f.write_str(match self {
            Space::Global => "global",
            Space::Shared => "shared",
        })
    }
}

impl fmt::Display for Operation {
    fn fmt(&self, f: &mut fmt::Formatter<'_>) -> fmt::Result {
        f.write_str(match self {
            Operation::And => "and",
            Operation::Or => "or",
            Operation::Xor => "xor",
            Operation::Add => "add",
            Operation::Min => "min",
            Operation::Max => "max",
        })
    }
}

impl fmt::Display for ElementType {
    fn fmt(&self, f: &mut fmt::Formatter<'_>) -> fmt::Result {
        f.write_str(match self {
            ElementType::B32 => "b32",
            ElementType::U32 => "u32",
            ElementType::S32 => "s32",
        })
    }
}
