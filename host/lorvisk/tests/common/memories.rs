//! The files of a run: the document's file `t`, memories `g` and `s`, a load record `l`, and older results in `R`.

use super::installed::Installed;
use super::lists::{ACCEPTED_FILE, ACCEPTED_SHEET};
use std::fs;

pub const GLOBAL_BYTES: &[u8; 16] = b"0123456789abcdef";
pub const SHARED_BYTES: &[u8; 16] = b"................";
pub const LOADS_BYTES: &[u8; 6] = b"------";

/// What the document's file leaves: four bytes are copied from global to shared memory and then loaded.
pub const LOADS_AFTER: &[u8; 6] = b"0123--";
pub const SHARED_AFTER: &[u8; 16] = b"0123............";

/// What the document's file writes when it is run: the sheet, the load record, both memories.
pub fn whole_answer() -> Vec<u8> {
    let parts: [&[u8]; 4] = [&ACCEPTED_SHEET, LOADS_AFTER, GLOBAL_BYTES, SHARED_AFTER];
    parts.concat()
}

/// The names of these files, without the older results.
pub const NAMES: [&str; 4] = ["g", "l", "s", "t"];

pub const RESULTS: [&str; 3] = ["global", "loads", "shared"];

/// The tool and these files.
pub fn with_memories() -> Installed {
    let tool = Installed::new();
    tool.put("t", ACCEPTED_FILE);
    tool.put("g", GLOBAL_BYTES);
    tool.put("s", SHARED_BYTES);
    tool.put("l", LOADS_BYTES);
    put_old_results(&tool);
    tool
}

pub fn put_old_results(tool: &Installed) {
    let _ = fs::create_dir(tool.path("R"));
    for name in RESULTS {
        tool.put(format!("R/{name}"), "old");
    }
}

/// The words of a run over these files, with more after them.
pub fn run_words<'a>(more: &[&'a str]) -> Vec<&'a str> {
    let words = "run --global g --shared s --loads l --results R";
    words.split(' ').chain(more.iter().copied()).collect()
}

/// The results are these, and nothing else stands beside them.
#[track_caller]
pub fn has_results(tool: &Installed, loads: &[u8], global: &[u8], shared: &[u8]) {
    assert_eq!(tool.names("R"), RESULTS);
    assert_eq!(tool.bytes("R/loads").unwrap(), loads);
    assert_eq!(tool.bytes("R/global").unwrap(), global);
    assert_eq!(tool.bytes("R/shared").unwrap(), shared);
}

/// No results stand there, and what was read is as it was.
#[track_caller]
pub fn has_files_alone(tool: &Installed) {
    assert_eq!(tool.names("."), NAMES);
    tool.has_no_temporary_files();
}
