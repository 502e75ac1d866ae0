//! Code 4 of a run: a memory length unequal to the lent memory; before the
//! events, after the shape.

use super::bytes::*;
use super::{accepted_run, refused_run, RunRow};
use crate::answers::*;
use second::Answer;

pub fn runs() -> Vec<RunRow> {
    [one_byte_off(), longest(), order()].concat()
}

/// A refused run over memories of these lengths, with room for 4 bytes.
fn over(shows: &'static str, trace: &str, global: usize, shared: usize, answer: Answer) -> RunRow {
    refused_run(shows, trace, bytes(all(0xaa, 4), all(0x11, global), all(0xee, shared)), answer)
}

/// The file names memories of 16 and 16; the last one of 16 and 32.
fn one_byte_off() -> Vec<RunRow> {
    let file = "k01_copy_wait_all_load";
    vec![
        over("global lent one byte short", file, 15, 16, MEMORY),
        over("global lent one byte long", file, 17, 16, MEMORY),
        over("shared lent one byte short", file, 16, 15, MEMORY),
        over("shared lent one byte long", file, 16, 17, MEMORY),
        over("both lent empty", file, 0, 0, MEMORY),
        over("global lent for shared and shared for global", "reduction_add_u32", 32, 16, MEMORY),
    ]
}

fn longest() -> Vec<RunRow> {
    let longest = || bytes(vec![], all(0x11, 65_536), all(0xee, 65_536));
    let empty = || bytes(vec![], vec![], vec![]);
    vec![
        over("lent as the header says, but over 65,536", "global_length_65537", 65_537, 16, MEMORY),
        over("lent as the header says, but over 65,536", "shared_length_65537", 16, 65_537, MEMORY),
        over("65,536 in the header, one byte less lent", "global_length_65536", 65_535, 16, MEMORY),
        accepted_run("65,536 lent", "both_lengths_65536", longest(), accepted(0, 0), longest()),
        accepted_run("nothing lent", "both_lengths_0", empty(), accepted(0, 0), empty()),
    ]
}

fn order() -> Vec<RunRow> {
    let no_room = bytes(vec![], all(0x11, 17), all(0xee, 16));
    vec![
        over("2 before 4", "one_byte_short", 17, 16, SHAPE),
        over("2 before 4", "header_byte_2_is_1", 16, 17, SHAPE),
        over("2 before 4", "file_of_11_bytes", 17, 17, SHAPE),
        over("3 before 4", "n_1025_in_12_bytes", 17, 16, TOO_MANY),
        over("4 before an unknown kind", "kind_3", 17, 16, MEMORY),
        over("4 before a body length", "load_with_a_body_of_7", 16, 15, MEMORY),
        over("4 before a clash", "k02_load_of_an_open_copy", 15, 16, MEMORY),
        refused_run("4 before 11", "k01_copy_wait_all_load", no_room, MEMORY),
    ]
}
