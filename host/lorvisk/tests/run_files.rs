//! The files of a run: those that cannot be read, folders of results that hold something else, places that meet.

mod common;

use common::installed::Installed;
use common::lists::*;
use common::memories::*;
use common::said::{Said, ACCEPTED, NO_VERDICT, REFUSED, UNUSABLE};
use common::stand_ins::{if_alone, writes, ON_A_FULL_DISK, ON_A_SMALL_DISK};
use common::trace::file;
use std::ffi::OsStr;
use std::fs;
use std::os::unix::ffi::OsStrExt;

fn asked(tool: &Installed, words: &str) -> Said {
    tool.asked(&words.split(' ').collect::<Vec<_>>())
}

#[test]
fn older_results_and_an_older_sheet_are_gone_before_the_run_starts() {
    let looks = if_alone(&NAMES, &writes(&whole_answer()));
    let tool = with_memories().with("lorvisk_run", &looks);
    tool.put("OUT", "old");
    let said = tool.asked(&run_words(&["t"]));
    said.ends(NO_VERDICT);
    put_old_results(&tool);
    let said = tool.asked(&run_words(&["--sheet", "OUT", "t"]));
    said.ends(ACCEPTED);
    has_results(&tool, LOADS_AFTER, GLOBAL_BYTES, SHARED_AFTER);
}

#[test]
fn a_file_of_a_run_that_cannot_be_read_is_named_and_older_results_are_gone() {
    for name in NAMES {
        let tool = with_memories();
        fs::remove_file(tool.path(name)).expect("it was there");
        let said = tool.asked(&run_words(&["t"]));
        said.ends(UNUSABLE).prints(&["t: no verdict"]);
        said.complains(&format!("{name}: it cannot be read"));
        tool.put_folder(name);
        put_old_results(&tool);
        let said = tool.asked(&run_words(&["t"]));
        said.ends(UNUSABLE).prints(&["t: no verdict"]);
        said.complains(&format!("{name}: it is a folder"));
        has_files_alone(&tool);
    }
}

/// A pipe has no length, so it is neither a memory nor a record.
#[test]
fn a_pipe_as_a_memory_is_unusable() {
    let tool = with_memories();
    let words = "run --global /dev/stdin --shared s --loads l --results R t";
    let words: Vec<&str> = words.split(' ').collect();
    let said = tool.asked_through_pipe(&words, GLOBAL_BYTES);
    said.ends(UNUSABLE).complains("/dev/stdin");
    has_files_alone(&tool);
}

#[test]
fn a_folder_that_holds_something_else_is_not_touched() {
    let tool = with_memories();
    for name in ["note", ".hidden", "loads2", "Global"] {
        tool.put(format!("R/{name}"), "mine");
        let said = tool.asked(&run_words(&["t"]));
        said.ends(UNUSABLE)
            .prints(&["t: no verdict"])
            .complains("R ");
        assert_eq!(tool.bytes(format!("R/{name}")).unwrap(), b"mine");
        fs::remove_file(tool.path(format!("R/{name}"))).expect("it was there");
        has_results(&tool, b"old", b"old", b"old");
    }
}

#[test]
fn a_folder_that_holds_a_folder_is_not_touched() {
    for name in RESULTS {
        let tool = with_memories();
        fs::remove_file(tool.path(format!("R/{name}"))).expect("it was there");
        tool.put_folder(&format!("R/{name}"));
        tool.put(format!("R/{name}/note"), "mine");
        tool.asked(&run_words(&["t"])).ends(UNUSABLE);
        assert_eq!(tool.bytes(format!("R/{name}/note")).unwrap(), b"mine");
        assert_eq!(tool.names("R"), RESULTS);
    }
}

#[test]
fn a_link_to_a_folder_of_results_is_not_touched() {
    let tool = with_memories();
    fs::rename(tool.path("R"), tool.path("others")).expect("the results are there");
    std::os::unix::fs::symlink("others", tool.path("R")).expect("a link");
    tool.asked(&run_words(&["t"]))
        .ends(UNUSABLE)
        .complains("R ");
    has_results(&tool, b"old", b"old", b"old");
}

#[test]
fn an_empty_folder_and_one_with_some_results_are_taken() {
    let tool = with_memories();
    for name in RESULTS {
        fs::remove_file(tool.path(format!("R/{name}"))).expect("it was there");
    }
    tool.asked(&run_words(&["t"])).ends(ACCEPTED);
    has_results(&tool, LOADS_AFTER, GLOBAL_BYTES, SHARED_AFTER);
    fs::remove_file(tool.path("R/global")).expect("a result");
    tool.asked(&run_words(&["t"])).ends(ACCEPTED);
    has_results(&tool, LOADS_AFTER, GLOBAL_BYTES, SHARED_AFTER);
}

#[test]
fn results_that_would_replace_a_file_that_is_read_are_refused() {
    for words in [
        "run --global R/global --shared s --loads l --results R t",
        "run --global g --shared R/shared --loads l --results R t",
        "run --global g --shared s --loads R/loads --results R t",
        "run --global g --shared s --loads l --results R R/loads",
        "run --global R/loads --shared s --loads l --results ./R/../R/ t",
    ] {
        let tool = with_memories();
        let said = asked(&tool, words);
        said.ends(UNUSABLE).complains("--results");
        has_results(&tool, b"old", b"old", b"old");
    }
}

#[test]
fn results_that_are_read_by_another_name_are_refused() {
    let tool = with_memories();
    fs::remove_file(tool.path("R/loads")).expect("an old result");
    fs::hard_link(tool.path("g"), tool.path("R/loads")).expect("a hard link");
    let said = tool.asked(&run_words(&["t"]));
    said.ends(UNUSABLE).complains("--results");
    assert_eq!(tool.bytes("R/loads").unwrap(), GLOBAL_BYTES);
    let said = tool.asked_from(&run_words(&["-"]), "R/global");
    said.ends(UNUSABLE).complains("--results");
    assert_eq!(tool.bytes("R/global").unwrap(), b"old");
}

#[test]
fn a_place_where_no_folder_can_be_put_ends_with_2() {
    let tool = with_memories();
    let before = tool.names(".");
    for results in ["g", "gone/R", "g/R", ".", "..", "/"] {
        let words = format!("run --global g --shared s --loads l --results {results} t");
        let said = asked(&tool, &words);
        said.ends(UNUSABLE).prints(&["t: no verdict"]);
        said.complains(results);
        assert_eq!(tool.names("."), before);
        assert_eq!(tool.bytes("g").unwrap(), GLOBAL_BYTES);
    }
}

#[test]
fn a_sheet_that_would_replace_a_file_that_is_read_is_refused() {
    let tool = with_memories();
    for name in NAMES {
        let before = tool.bytes(name);
        let said = tool.asked(&run_words(&["t", "--sheet", name]));
        said.ends(UNUSABLE).complains("--sheet");
        assert_eq!(tool.bytes(name), before);
    }
    let said = tool.asked_from(&run_words(&["-", "--sheet", "t"]), "t");
    said.ends(UNUSABLE).complains("--sheet");
    assert_eq!(tool.bytes("t").unwrap(), ACCEPTED_FILE);
}

/// The load record is written before the first memory, which does not fit.
#[test]
fn a_full_disk_leaves_neither_results_nor_some_of_them() {
    let tool = with_memories();
    tool.put("t", file(1_024, 16, &[]));
    tool.put("g", [1; 1_024]);
    for disk in [ON_A_FULL_DISK, ON_A_SMALL_DISK] {
        tool.put("OUT", ACCEPTED_SHEET);
        put_old_results(&tool);
        let said = tool.asked_by_shell(disk, &run_words(&["t", "--sheet", "OUT"]));
        said.ends(UNUSABLE).prints(&["t: no verdict"]);
        said.complains("R ");
        has_files_alone(&tool);
    }
}

/// What is said to have no verdict leaves nothing that looks like one.
#[test]
fn without_a_place_for_the_sheet_there_are_no_results() {
    let tool = with_memories();
    let said = tool.asked(&run_words(&["t", "--sheet", "gone/OUT"]));
    said.ends(UNUSABLE).prints(&["t: no verdict"]);
    said.complains("gone/OUT");
    assert!(!tool.path("R").exists(), "{said:#?}");
}

#[test]
fn without_a_place_for_the_sheet_older_results_are_gone_too() {
    let tool = with_memories();
    tool.put_folder("folder");
    for out in ["t/OUT", "folder"] {
        put_old_results(&tool);
        let said = tool.asked(&run_words(&["t", "--sheet", out]));
        said.ends(UNUSABLE).prints(&["t: no verdict"]);
        said.complains(out);
        assert!(!tool.path("R").exists(), "{said:#?}");
    }
}

/// A sheet would take the place of a result, and the status would be that of acceptance.
#[test]
fn a_sheet_in_the_place_of_the_results_is_refused() {
    for out in ["R/loads", "R/global", "R/shared", "./R/loads", "R"] {
        let tool = with_memories();
        fs::remove_dir_all(tool.path("R")).expect("old results");
        let said = tool.asked(&run_words(&["t", "--sheet", out]));
        said.ends(UNUSABLE).complains("--sheet");
        has_files_alone(&tool);
    }
}

#[test]
fn a_refusal_is_a_refusal_wherever_its_sheet_was_to_be_put() {
    let tool = with_memories();
    tool.put("t", refused_file());
    let said = tool.asked(&run_words(&["t", "--sheet", "R/sheet"]));
    match said.status {
        // Its place is in the folder that goes, and that can be said before anything is judged.
        Some(UNUSABLE) => assert!(tool.path("R/loads").exists(), "{said:#?}"),
        _ => assert_eq!(tool.bytes("R/sheet").unwrap(), REFUSED_SHEET, "{said:#?}"),
    }
}

#[test]
fn files_of_a_run_may_have_odd_names() {
    let tool = with_memories();
    let odd: [&[u8]; 5] = [b"g\n", b"\xff", b"\x1b[2K", b"a b", b"r\n\xfe"];
    for (name, odd) in NAMES.into_iter().zip(odd) {
        fs::rename(tool.path(name), tool.path(OsStr::from_bytes(odd))).expect("a new name");
    }
    let words: [&[u8]; 10] = [
        b"run",
        b"--global",
        odd[0],
        b"--shared",
        odd[2],
        b"--loads",
        odd[1],
        b"--results",
        odd[4],
        odd[3],
    ];
    let said = tool.asked(&words.map(OsStr::from_bytes));
    said.ends(ACCEPTED)
        .prints(&[&format!("a b: {ACCEPTED_LINE}")]);
    let results = tool.path(OsStr::from_bytes(odd[4]));
    assert_eq!(fs::read(results.join("loads")).unwrap(), LOADS_AFTER);
}

#[test]
fn a_missing_file_of_a_run_keeps_to_its_line() {
    let tool = with_memories();
    let words = "run --shared s --loads l --results R t --global";
    let mut words: Vec<&OsStr> = words.split(' ').map(OsStr::new).collect();
    words.push(OsStr::from_bytes(b"gone\n\xff\x1b[2K"));
    let said = tool.asked(&words);
    said.ends(UNUSABLE).complains("gone\\n\\xff\\u{1b}[2K");
    assert_eq!(said.err.lines().count(), 1, "{said:#?}");
}

#[test]
fn a_refusal_and_an_acceptance_after_each_other_leave_their_own() {
    let tool = with_memories();
    tool.put("bad", refused_file());
    for _ in 0..2 {
        let said = tool.asked(&run_words(&["t", "--sheet", "OUT"]));
        said.ends(ACCEPTED);
        has_results(&tool, LOADS_AFTER, GLOBAL_BYTES, SHARED_AFTER);
        let said = tool.asked(&run_words(&["bad", "--sheet", "OUT"]));
        said.ends(REFUSED);
        assert_eq!(tool.bytes("OUT").unwrap(), REFUSED_SHEET);
        assert_eq!(tool.names("."), ["OUT", "bad", "g", "l", "s", "t"]);
    }
}
