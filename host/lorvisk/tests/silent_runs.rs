//! Runs that die or do not finish what they write: never status 0, never results, never a sheet.

mod common;

use common::installed::Installed;
use common::lists::*;
use common::memories::*;
use common::said::{ACCEPTED, NO_VERDICT};
use common::stand_ins::*;
use std::fs;

/// Older results and an older sheet are gone, and nothing stands in their place.
#[track_caller]
fn leaves_nothing(tool: &Installed) {
    tool.put("OUT", ACCEPTED_SHEET);
    put_old_results(tool);
    let said = tool.asked(&run_words(&["--sheet", "OUT", "t"]));
    said.ends(NO_VERDICT).prints(&["t: no verdict"]);
    said.complains("lorvisk: t: ").complains("no verdict");
    has_files_alone(tool);
    put_old_results(tool);
    let said = tool.asked_from(&run_words(&["-"]), "t");
    said.ends(NO_VERDICT)
        .prints(&["standard input: no verdict"]);
    has_files_alone(tool);
}

#[test]
fn a_stand_in_that_does_what_the_run_does_is_heard() {
    let tool = with_memories().with("lorvisk_run", &writes(&whole_answer()));
    tool.asked(&run_words(&["t"])).ends(ACCEPTED).is_content();
    has_results(&tool, LOADS_AFTER, GLOBAL_BYTES, SHARED_AFTER);
}

#[test]
fn a_run_that_dies_leaves_nothing() {
    let whole = whole_answer();
    for run in [
        "kill -9 $$".to_string(),
        "kill -SEGV $$".to_string(),
        "exit 1".to_string(),
        writes_and(&whole, "kill -9 $$"),
        writes_and(&whole, "exit 1"),
        writes_and(&whole[..30], "kill -TERM $$"),
        writes_and(&REFUSED_SHEET, "exit 2"),
    ] {
        leaves_nothing(&with_memories().with("lorvisk_run", &run));
    }
}

/// The sheet alone, every part of a file, all but the last byte.
#[test]
fn a_run_that_accepts_and_writes_part_of_its_results_leaves_nothing() {
    let whole = whole_answer();
    for length in [0, 1, 11, 12, 13, 17, 18, 19, 33, 34, 35, 49] {
        let run = writes(&whole[..length]);
        leaves_nothing(&with_memories().with("lorvisk_run", &run));
    }
}

#[test]
fn a_run_that_writes_more_than_its_results_leaves_nothing() {
    let whole = whole_answer();
    for run in [
        writes_and(&whole, "echo"),
        writes_and(&whole, &writes(&whole)),
        writes_and(&whole, ENDLESS),
        ENDLESS.to_string(),
        "head -c 10000000 /dev/zero".to_string(),
    ] {
        leaves_nothing(&with_memories().with("lorvisk_run", &run));
    }
}

#[test]
fn a_run_that_refuses_and_writes_results_leaves_nothing() {
    for length in [13, 49, 50] {
        let mut answer = whole_answer();
        answer[..12].copy_from_slice(&REFUSED_SHEET);
        let run = writes(&answer[..length]);
        leaves_nothing(&with_memories().with("lorvisk_run", &run));
    }
}

#[test]
fn a_run_without_a_right_sheet_leaves_nothing() {
    for (place, byte) in [(0, 5), (2, 9), (6, 1), (8, 4), (10, 0), (10, 12), (11, 1)] {
        let mut answer = whole_answer();
        answer[place] = byte;
        leaves_nothing(&with_memories().with("lorvisk_run", &writes(&answer)));
        leaves_nothing(&with_memories().with("lorvisk_run", &writes(&answer[..12])));
    }
    leaves_nothing(&with_memories().with("lorvisk_run", &writes(&[0; 12])));
    leaves_nothing(&with_memories().with("lorvisk_run", &writes(&[0; 50])));
}

#[test]
fn a_run_whose_sheet_is_not_read_leaves_nothing() {
    for reader in [
        "kill -9 $$",
        "exit 0",
        "printf '1 3 0 1'",
        "echo 1 3 0 1; echo",
        "echo 1 3 0 1; exit 1",
        "echo 0 0 0 0",
        "echo accepted",
    ] {
        leaves_nothing(&with_memories().with("lorvisk_sheet", reader));
    }
}

#[test]
fn a_run_that_cannot_be_started_leaves_nothing() {
    for program in ["lorvisk_run", "lorvisk_sheet"] {
        let tool = with_memories();
        for words in ["", "\n", "/no/such/program\n", "/\n"] {
            tool.start(program, words);
            leaves_nothing(&tool);
            let said = tool.asked(&run_words(&["t"]));
            said.complains(program).complains("tools/build");
        }
        fs::remove_file(tool.programs().join(program)).expect("it was there");
        leaves_nothing(&tool);
    }
}

#[test]
fn a_tool_that_is_killed_leaves_nothing() {
    let run = format!("kill -9 $PPID; {}", writes(&whole_answer()));
    let reader = "kill -9 $PPID; echo 1 3 0 1";
    for tool in [
        with_memories().with("lorvisk_run", &run),
        with_memories().with("lorvisk_sheet", reader),
    ] {
        tool.put("OUT", ACCEPTED_SHEET);
        let said = tool.asked(&run_words(&["--sheet", "OUT", "t"]));
        assert_eq!((said.status, said.out.as_str()), (None, ""));
        has_files_alone(&tool);
    }
}

/// The judge has no part in a run, and the run none in judging.
#[test]
fn each_command_needs_its_own_programs_alone() {
    let tool = with_memories();
    fs::remove_file(tool.programs().join("lorvisk_judge")).expect("it was there");
    tool.asked(&run_words(&["t"])).ends(ACCEPTED);
    tool.asked(&["judge", "t"]).ends(NO_VERDICT);
    let tool = with_memories();
    fs::remove_file(tool.programs().join("lorvisk_run")).expect("it was there");
    tool.asked(&["judge", "t"]).ends(ACCEPTED);
    tool.asked(&run_words(&["t"])).ends(NO_VERDICT);
}
