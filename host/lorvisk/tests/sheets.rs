//! `--sheet OUT`: a whole sheet of this very judging stands at OUT afterwards, or nothing does.

mod common;

use common::installed::Installed;
use common::lists::*;
use common::said::{ACCEPTED, NO_VERDICT, REFUSED, UNUSABLE};
use common::stand_ins::{accepts, if_alone, ON_A_FULL_DISK};
use common::trace::*;
use std::ffi::OsStr;
use std::fs;
use std::os::unix::ffi::OsStrExt;
use std::os::unix::fs::symlink;
use std::os::unix::net::UnixListener;

/// The tool, the document's file, the same without its wait, and an old sheet at OUT that accepts.
fn with_old_sheet() -> Installed {
    let tool = Installed::new();
    tool.put("good", ACCEPTED_FILE);
    tool.put("bad", refused_file());
    tool.put("OUT", sheet(1, 0, 0, 0));
    tool
}

#[test]
fn the_sheets_are_the_documents() {
    let tool = with_old_sheet();
    let said = tool.asked(&["judge", "--sheet", "OUT", "good"]);
    said.ends(ACCEPTED).is_content();
    said.prints(&[&format!("good: {ACCEPTED_LINE}")]);
    assert_eq!(tool.bytes("OUT").unwrap(), ACCEPTED_SHEET);
    let said = tool.asked(&["judge", "--sheet", "OUT", "bad"]);
    said.ends(REFUSED).is_content();
    said.prints(&[&format!("bad: {REFUSED_LINE}")]);
    assert_eq!(tool.bytes("OUT").unwrap(), REFUSED_SHEET);
    assert_eq!(tool.names("."), ["OUT", "bad", "good"]);
}

#[test]
fn a_refusal_of_each_code_puts_a_sheet_with_its_code() {
    let tool = with_old_sheet();
    let many: Vec<Event> = (0..1_025).map(|_| commit()).collect();
    for (bytes, numbers) in [
        (ACCEPTED_FILE[..47].to_vec(), sheet(2, 0, 0, 0)),
        (file(16, 16, &many), sheet(3, 0, 0, 0)),
        (file(16, 65_537, &[]), sheet(4, 0, 0, 0)),
        (file_of(&[commit(), event(0, &[])]), sheet(5, 1, 0, 0)),
        (file_of(&[commit(), event(1, &[])]), sheet(6, 1, 0, 0)),
        (file_of(&[commit(), load(2, 1, 0)]), sheet(7, 1, 0, 0)),
        (file_of(&[commit(), load(0, 2, 1)]), sheet(8, 1, 0, 0)),
        (file_of(&[commit(), load(0, 1, 64)]), sheet(9, 1, 0, 0)),
        (file_of(&k5(32)), sheet(10, 7, 4, 0)),
    ] {
        tool.put("a", bytes);
        let said = tool.asked(&["judge", "a", "--sheet", "OUT"]);
        said.ends(REFUSED);
        assert_eq!(tool.bytes("OUT").unwrap(), numbers, "{said:#?}");
    }
}

#[test]
fn a_sheet_can_be_read_again_with_the_same_answer() {
    let tool = with_old_sheet();
    tool.put("a", file_of(&k5(16)));
    let said = tool.asked(&["judge", "--sheet=OUT", "a"]);
    let words = "accepted (1): 8 events, at most 3 operations open";
    said.ends(ACCEPTED).prints(&[&format!("a: {words}")]);
    let said = tool.asked(&["sheet", "OUT"]);
    said.ends(ACCEPTED).prints(&[&format!("OUT: {words}")]);
}

#[test]
fn standard_input_has_a_sheet_too() {
    let tool = with_old_sheet();
    let words = ["judge", "--sheet", "OUT", "-"];
    tool.asked_from(&words, "bad").ends(REFUSED);
    assert_eq!(tool.bytes("OUT").unwrap(), REFUSED_SHEET);
    tool.asked_through_pipe(&words, &ACCEPTED_FILE)
        .ends(ACCEPTED);
    assert_eq!(tool.bytes("OUT").unwrap(), ACCEPTED_SHEET);
}

#[test]
fn an_old_sheet_is_gone_when_the_file_cannot_be_read() {
    let tool = with_old_sheet();
    tool.put_folder("folder");
    for name in ["gone", "folder", "good/in", ""] {
        tool.put("OUT", ACCEPTED_SHEET);
        tool.asked(&["judge", "--sheet", "OUT", name])
            .ends(UNUSABLE);
        assert_eq!(tool.bytes("OUT"), None, "{name}");
    }
    assert_eq!(tool.names("."), ["bad", "folder", "good"]);
}

#[test]
fn an_old_sheet_is_gone_when_the_judge_dies_or_says_no_verdict() {
    for judge in ["kill -9 $$", "head -c 12 /dev/zero", "exit 0"] {
        let tool = with_old_sheet().with("lorvisk_judge", judge);
        let said = tool.asked(&["judge", "--sheet", "OUT", "good"]);
        said.ends(NO_VERDICT).prints(&["good: no verdict"]);
        assert_eq!(tool.names("."), ["bad", "good"], "{judge}");
    }
}

#[test]
fn an_old_sheet_is_gone_before_the_judge_starts() {
    let looks = if_alone(&["bad", "good"], &accepts());
    let tool = with_old_sheet().with("lorvisk_judge", &looks);
    tool.asked(&["judge", "good"]).ends(NO_VERDICT);
    let said = tool.asked(&["judge", "--sheet", "OUT", "good"]);
    said.ends(ACCEPTED);
    assert_eq!(tool.bytes("OUT").unwrap(), ACCEPTED_SHEET);
}

#[test]
fn no_sheet_stands_there_before_it_is_read_by_the_proved_reader() {
    let looks = if_alone(&["bad", "good"], "echo 1 3 0 1");
    let tool = with_old_sheet().with("lorvisk_sheet", &looks);
    tool.asked(&["judge", "good"]).ends(NO_VERDICT);
    let said = tool.asked(&["judge", "--sheet", "OUT", "good"]);
    said.ends(ACCEPTED);
    assert_eq!(tool.bytes("OUT").unwrap(), ACCEPTED_SHEET);
}

/// Ways in which OUT and FILE can be the one file that holds a trace.
#[test]
fn a_sheet_never_replaces_the_file_that_is_judged() {
    let tool = with_old_sheet();
    symlink("good", tool.path("link")).expect("a link");
    fs::hard_link(tool.path("good"), tool.path("hard")).expect("a hard link");
    tool.put_folder("folder");
    for (out, name) in [
        ("good", "good"),
        ("./good", "good"),
        ("folder/../good", "good"),
        ("link", "good"),
        ("good", "link"),
        ("hard", "good"),
        ("link", "hard"),
    ] {
        let said = tool.asked(&["judge", "--sheet", out, name]);
        said.ends(UNUSABLE).complains("--sheet");
        said.prints(&[&format!("{name}: no verdict")]);
        assert_eq!(tool.bytes("good").unwrap(), ACCEPTED_FILE, "{said:#?}");
    }
    let names = ["OUT", "bad", "folder", "good", "hard", "link"];
    assert_eq!(tool.names("."), names);
}

#[test]
fn a_sheet_never_replaces_the_file_that_is_standard_input() {
    let tool = with_old_sheet();
    symlink("good", tool.path("link")).expect("a link");
    for out in ["good", "link"] {
        let said = tool.asked_from(&["judge", "--sheet", out, "-"], "good");
        said.ends(UNUSABLE).complains("--sheet");
        assert_eq!(tool.bytes("good").unwrap(), ACCEPTED_FILE);
    }
}

#[test]
fn a_link_at_the_sheets_place_is_replaced_and_what_it_leads_to_is_kept() {
    let tool = with_old_sheet();
    for target in ["bad", "nothing"] {
        let _ = fs::remove_file(tool.path("OUT"));
        symlink(target, tool.path("OUT")).expect("a link");
        tool.asked(&["judge", "--sheet", "OUT", "good"])
            .ends(ACCEPTED);
        let found = fs::symlink_metadata(tool.path("OUT")).expect("a sheet");
        assert!(found.is_file());
        assert_eq!(tool.bytes("OUT").unwrap(), ACCEPTED_SHEET);
    }
    assert_eq!(tool.bytes("bad").unwrap(), refused_file());
    assert_eq!(tool.names("."), ["OUT", "bad", "good"]);
}

#[test]
fn what_is_no_file_is_neither_removed_nor_replaced_by_a_sheet() {
    let tool = with_old_sheet();
    tool.put_folder("folder");
    let _socket = UnixListener::bind(tool.path("socket")).expect("a socket");
    for out in ["folder", "folder/", ".", "..", "/", "socket"] {
        let said = tool.asked(&["judge", "--sheet", out, "good"]);
        said.ends(UNUSABLE).prints(&["good: no verdict"]);
        said.complains(out);
    }
    assert_eq!(tool.names("."), ["OUT", "bad", "folder", "good", "socket"]);
    assert_eq!(tool.names("folder"), [""; 0]);
}

/// `/dev/stdout` is such a link, and whoever may remove it would lose it for all.
#[test]
fn a_link_to_what_is_no_file_is_neither_removed_nor_replaced_by_a_sheet() {
    let tool = with_old_sheet();
    let _socket = UnixListener::bind(tool.path("socket")).expect("a socket");
    symlink("socket", tool.path("link")).expect("a link");
    let said = tool.asked(&["judge", "--sheet", "link", "good"]);
    said.ends(UNUSABLE).complains("link");
    let found = fs::symlink_metadata(tool.path("link")).expect("the link");
    assert!(found.is_symlink());
}

#[test]
fn a_full_disk_leaves_neither_a_sheet_nor_part_of_one() {
    let tool = with_old_sheet();
    let words = ["judge", "--sheet", "OUT", "good"];
    let said = tool.asked_by_shell(ON_A_FULL_DISK, &words);
    said.ends(UNUSABLE).prints(&["good: no verdict"]);
    said.complains("OUT");
    assert_eq!(tool.names("."), ["bad", "good"]);
}

/// A shell keeps its number when it becomes the tool, so it knows the name that the tool gives to its temporary file.
#[test]
fn a_sheet_is_written_through_no_link_that_stands_beside_it() {
    let tool = with_old_sheet();
    tool.put("victim", "mine");
    let line = "ln -s victim .lorvisk-$$-0; exec \"$0\" \"$@\"";
    let said = tool.asked_by_shell(line, &["judge", "--sheet", "OUT", "good"]);
    said.ends(ACCEPTED);
    assert_eq!(tool.bytes("victim").unwrap(), b"mine");
    assert_eq!(tool.bytes("OUT").unwrap(), ACCEPTED_SHEET);
}

#[test]
fn a_sheets_name_may_be_as_long_as_any() {
    let tool = with_old_sheet();
    let name = "n".repeat(255);
    tool.asked(&["judge", "--sheet", &name, "good"])
        .ends(ACCEPTED);
    assert_eq!(tool.bytes(&name).unwrap(), ACCEPTED_SHEET);
}

#[test]
fn a_sheet_in_a_folder_that_is_not_there_ends_with_2_and_names_it() {
    let tool = with_old_sheet();
    for out in ["gone/OUT", "good/OUT", "OUT/"] {
        let said = tool.asked(&["judge", "--sheet", out, "good"]);
        said.ends(UNUSABLE).prints(&["good: no verdict"]);
        said.complains(out);
    }
    assert_eq!(tool.names("."), ["OUT", "bad", "good"]);
}

#[test]
fn a_sheet_that_cannot_be_removed_ends_with_2_before_anything_is_judged() {
    let tool = with_old_sheet().with("lorvisk_judge", "touch started");
    let said = tool.asked(&["judge", "--sheet", "/proc/version", "good"]);
    said.ends(UNUSABLE).complains("/proc/version");
    assert_eq!(tool.names("."), ["OUT", "bad", "good"]);
}

#[test]
fn a_sheet_is_for_one_file() {
    let tool = with_old_sheet().with("lorvisk_judge", "touch started");
    for words in [
        ["judge", "--sheet", "OUT", "good", "good"],
        ["judge", "good", "--sheet", "OUT", "bad"],
        ["judge", "good", "bad", "--sheet", "OUT"],
    ] {
        let said = tool.asked(&words);
        said.ends(UNUSABLE).prints(&[]);
        said.complains("--sheet").complains("lorvisk judge --help");
    }
    assert!(!tool.names(".").contains(&"started".to_string()));
}

#[test]
fn a_sheets_name_may_be_odd() {
    let tool = with_old_sheet();
    for name in [b"a\nb".as_slice(), b"\xff\x1b[2K", b"-x", b"--sheet"] {
        let out = OsStr::from_bytes(name);
        let words = [
            OsStr::new("judge"),
            OsStr::new("--sheet"),
            out,
            OsStr::new("good"),
        ];
        tool.asked(&words).ends(ACCEPTED).is_content();
        assert_eq!(tool.bytes(out).unwrap(), ACCEPTED_SHEET);
    }
}

#[test]
fn an_odd_name_of_a_sheet_keeps_to_its_line() {
    let tool = with_old_sheet();
    let out = OsStr::from_bytes(b"gone\n\xff\x1b[2K/OUT");
    let words = [
        OsStr::new("judge"),
        OsStr::new("--sheet"),
        out,
        OsStr::new("good"),
    ];
    let said = tool.asked(&words);
    said.ends(UNUSABLE).complains("gone\\n\\xff\\u{1b}[2K/OUT");
    assert_eq!(said.err.lines().count(), 1, "{said:#?}");
}

#[test]
fn a_sheet_option_without_a_right_value_is_refused() {
    let tool = with_old_sheet();
    for words in [
        vec!["judge", "good", "--sheet"],
        vec!["judge", "good", "--sheet="],
        vec!["judge", "good", "--sheet", ""],
        vec!["judge", "good", "--sheet", "-"],
        vec!["judge", "good", "--sheet=-"],
        vec!["judge", "good", "--sheet", "OUT", "--sheet", "OUT"],
        vec!["judge", "good", "--sheet=OUT", "--sheet=bad"],
        vec!["judge", "--sheet", "good"],
        vec!["explain", "good", "--sheet", "OUT"],
        vec!["sheet", "OUT", "--sheet=bad"],
    ] {
        let said = tool.asked(&words);
        said.ends(UNUSABLE).prints(&[]).complains("--help");
    }
    assert_eq!(tool.bytes("good").unwrap(), ACCEPTED_FILE);
    assert_eq!(tool.bytes("bad").unwrap(), refused_file());
}

/// Whoever hands in the trace may hand in a link to the old sheet.
#[test]
fn an_old_sheet_that_is_handed_in_as_the_trace_is_gone() {
    let tool = with_old_sheet();
    std::os::unix::fs::symlink("OUT", tool.path("link")).expect("a link");
    tool.asked(&["judge", "--sheet", "OUT", "link"])
        .ends(UNUSABLE);
    assert_eq!(tool.bytes("OUT"), None);
}
