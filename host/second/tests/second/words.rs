//! Events and answers in words.

use crate::lists::*;
use second::trace::{Cache, Event, GlobalAddress, Mode, SharedAddress};

fn said(events_and_words: &[(Event, &str)]) {
    for (event, words) in events_and_words {
        assert_eq!(event.to_string(), *words);
    }
}

#[test]
fn copies_in_words() {
    let cg = Event::Copy {
        dst: SharedAddress(16),
        src: GlobalAddress(32),
        src_size: 0,
        cp_size: 16,
        mode: Mode::Plain,
        cache: Cache::Cg,
    };
    let given = |src_size| copy_in_mode(0, 0, 4, Mode::Given, src_size);
    let ignored = copy_in_mode(0, 8, 4, Mode::Ignored, 0);
    let of = "of 4 bytes from global 0 to shared 0";
    said(&[
        (copy(0, 0, 4), "copy of 4 bytes from global 0 to shared 0"),
        (cg, "copy of 16 bytes from global 32 to shared 16, .cg"),
        (given(4), &format!("copy of 4 {of}")),
        (given(3), &format!("copy of 3 {of} (the other byte zero)")),
        (
            given(2),
            &format!("copy of 2 {of} (the other 2 bytes zero)"),
        ),
        (
            ignored,
            "copy of 4 bytes, all zero, to shared 0 (global 8 ignored)",
        ),
    ]);
}

#[test]
fn other_events_in_words() {
    said(&[
        (load(shared(0), 4), "load of 4 bytes at shared 0"),
        (store(global(3), 1, 7), "store of 1 byte at global 3"),
        (Event::Commit, "commit"),
        (wait(1), "wait 1"),
        (Event::WaitAll, "wait-all"),
        (
            bulk_copy(16, 0, 32),
            "bulk copy of 32 bytes from shared 0 to global 16",
        ),
        (
            add(0, 0),
            "bulk reduction (add, u32) of 16 bytes at shared 0 into global 0",
        ),
        (Event::BulkCommit, "bulk commit"),
        (bulk_wait(2), "bulk wait 2"),
    ]);
}

#[test]
fn an_answer_is_four_numbers() {
    assert_eq!(clash(7, 4).to_string(), "10 7 4 0");
    assert_eq!(accepted(8, 3).to_string(), "1 8 0 3");
}
