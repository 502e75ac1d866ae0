//! `run`: what an accepted trace leaves, worked out by hand; the refusals; and its words.

mod common;

use common::installed::Installed;
use common::lists::*;
use common::memories::*;
use common::said::{Said, ACCEPTED, REFUSED, UNUSABLE};
use common::trace::*;
use std::fs::{self, File};

/// The document's file was accepted by this name, and left its results.
#[track_caller]
fn is_run(tool: &Installed, said: &Said, name: &str) {
    said.prints(&[&format!("{name}: {ACCEPTED_LINE}")]);
    said.ends(ACCEPTED).is_content();
    has_results(tool, LOADS_AFTER, GLOBAL_BYTES, SHARED_AFTER);
}

#[test]
fn the_documents_file_is_run() {
    let tool = with_memories();
    let said = tool.asked(&run_words(&["--sheet", "OUT", "t"]));
    is_run(&tool, &said, "t");
    assert_eq!(tool.bytes("OUT").unwrap(), ACCEPTED_SHEET);
    assert_eq!(tool.names("."), ["OUT", "R", "g", "l", "s", "t"]);
    tool.has_no_temporary_files();
}

#[test]
fn what_is_read_is_not_changed() {
    let tool = with_memories();
    let times = || NAMES.map(|name| fs::metadata(tool.path(name)).unwrap().modified().unwrap());
    let before = times();
    tool.asked(&run_words(&["t"])).ends(ACCEPTED);
    assert_eq!(times(), before);
    assert_eq!(tool.bytes("t").unwrap(), ACCEPTED_FILE);
    assert_eq!(tool.bytes("g").unwrap(), GLOBAL_BYTES);
    assert_eq!(tool.bytes("s").unwrap(), SHARED_BYTES);
    assert_eq!(tool.bytes("l").unwrap(), LOADS_BYTES);
}

/// Stores, a sum that wraps, a signed minimum, a copy of three of four bytes and one of none, two loads.
fn long_list() -> Vec<Event> {
    vec![
        store(
            GLOBAL,
            0,
            b"\xff\xff\xff\xff\x01\0\0\0\xff\xff\xff\xff\x05\0\0\0",
        ),
        store(SHARED, 0, b"\x01\0\0\0\x01\0\0\0\x01\0\0\0\x07\0\0\0"),
        reduction(0, 0, 16, ADD, U32),
        bulk_commit(),
        bulk_wait(0),
        load(GLOBAL, 16, 0),
        reduction(16, 0, 16, MIN, S32),
        copy_part(32, 32, 3, 4),
        copy_with(48, 48, 0, [16, IGNORED, 1, 0]),
        load(SHARED, 2, 16),
    ]
}

/// Operations still open at the end act then.
#[test]
fn a_longer_list_leaves_what_its_events_say() {
    let tool = with_memories();
    let global: Vec<u8> = (0..64).collect();
    let shared: Vec<u8> = (128..192).collect();
    tool.put("t", file_of(&long_list()));
    let operand = b"\xff\xff\xff\xff\0\0\0\x80\x02\0\0\0\0\0\0\0";
    tool.put("g", [&global[..16], operand, &global[32..]].concat());
    tool.put("s", &shared);
    tool.put("l", [0xff; 20]);
    let said = tool.asked(&run_words(&["t"]));
    said.prints(&["t: accepted (1): 10 events, at most 3 operations open"]);
    said.ends(ACCEPTED);
    let sum = b"\0\0\0\0\x02\0\0\0\0\0\0\0\x0c\0\0\0";
    let least = b"\xff\xff\xff\xff\0\0\0\x80\x01\0\0\0\0\0\0\0";
    let stored = b"\x01\0\0\0\x01\0\0\0\x01\0\0\0\x07\0\0\0";
    let loads = [sum.as_slice(), &shared[16..18], &[0xff; 2]].concat();
    let global = [sum, least, &global[32..]].concat();
    let copied = [32, 33, 34, 0];
    let shared = [stored, &shared[16..32], &copied, &shared[36..48], &[0; 16]].concat();
    has_results(&tool, &loads, &global, &shared);
}

#[test]
fn standard_input_is_run_as_a_file_is() {
    let tool = with_memories();
    let words = run_words(&["-"]);
    is_run(&tool, &tool.asked_from(&words, "t"), "standard input");
    put_old_results(&tool);
    let said = tool.asked_through_pipe(&words, &ACCEPTED_FILE);
    is_run(&tool, &said, "standard input");
    let said = tool.asked_through_pipe(&run_words(&["-"]), &refused_file());
    said.ends(REFUSED);
    has_files_alone(&tool);
}

/// A shell's `<(..)` is such a name, and so is `/dev/stdin`.
#[test]
fn standard_input_by_its_name_is_run_as_standard_input() {
    let tool = with_memories();
    let words = run_words(&["/dev/stdin"]);
    is_run(&tool, &tool.asked_from(&words, "t"), "/dev/stdin");
    put_old_results(&tool);
    let said = tool.asked_through_pipe(&words, &ACCEPTED_FILE);
    is_run(&tool, &said, "/dev/stdin");
}

#[test]
fn a_memory_by_the_name_of_standard_input_is_taken_or_said_to_be_unusable() {
    let tool = with_memories();
    let words = "run --global /dev/stdin --shared s --loads l --results R t";
    let said = tool.asked_from(&words.split(' ').collect::<Vec<_>>(), "g");
    match said.status {
        Some(ACCEPTED) => is_run(&tool, &said, "t"),
        _ => drop(said.ends(UNUSABLE).complains("/dev/stdin")),
    }
}

#[test]
fn a_refused_trace_leaves_a_sheet_and_no_results() {
    let tool = with_memories();
    for (bytes, words, numbers) in [
        (refused_file(), REFUSED_LINE, sheet(10, 1, 0, 0)),
        (
            ACCEPTED_FILE[..47].to_vec(),
            "refused (2): the file's shape is wrong",
            sheet(2, 0, 0, 0),
        ),
        (
            file(16, 16, &[load(GLOBAL, 4, 16)]),
            "refused (9): event 0 is out of range",
            sheet(9, 0, 0, 0),
        ),
    ] {
        put_old_results(&tool);
        tool.put("t", bytes);
        let said = tool.asked(&run_words(&["--sheet=OUT", "t"]));
        said.ends(REFUSED).prints(&[&format!("t: {words}")]);
        assert_eq!(tool.bytes("OUT").unwrap(), numbers);
        assert_eq!(tool.names("."), ["OUT", "g", "l", "s", "t"]);
    }
}

#[test]
fn a_memory_of_another_length_is_code_4() {
    for name in ["g", "s"] {
        for length in [0, 15, 17, 65_536, 65_537, 1_000_000] {
            let tool = with_memories();
            tool.put(name, vec![0; length]);
            let said = tool.asked(&run_words(&["--sheet", "OUT", "t"]));
            said.ends(REFUSED).says("t: refused (4): ");
            assert_eq!(tool.bytes("OUT").unwrap(), sheet(4, 0, 0, 0));
            assert_eq!(tool.names("."), ["OUT", "g", "l", "s", "t"]);
        }
    }
}

/// A memory's file of a gigabyte that takes no place on the disk.
#[test]
fn a_memory_far_too_long_is_code_4() {
    let tool = with_memories();
    let long = File::create(tool.path("g")).expect("a file");
    long.set_len(1 << 30).expect("a sparse file");
    let said = tool.asked(&run_words(&["t"]));
    said.ends(REFUSED).says("t: refused (4): ");
    has_files_alone(&tool);
}

#[test]
fn loads_that_do_not_fit_are_code_11() {
    for length in [0, 3] {
        let tool = with_memories();
        tool.put("l", vec![0; length]);
        let said = tool.asked(&run_words(&["--sheet", "OUT", "t"]));
        said.ends(REFUSED);
        said.prints(&["t: refused (11): the loads do not fit the load record"]);
        assert_eq!(tool.bytes("OUT").unwrap(), sheet(11, 3, 0, 0));
        assert_eq!(tool.names("."), ["OUT", "g", "l", "s", "t"]);
    }
}

#[test]
fn a_record_of_any_length_that_the_loads_fit_comes_back_at_its_length() {
    for length in [4, 5, 65_536] {
        let tool = with_memories();
        tool.put("l", vec![b'-'; length]);
        tool.asked(&run_words(&["t"])).ends(ACCEPTED);
        let mut loads = vec![b'-'; length];
        loads[..4].copy_from_slice(b"0123");
        has_results(&tool, &loads, GLOBAL_BYTES, SHARED_AFTER);
    }
}

#[test]
fn a_record_longer_than_65536_is_unusable() {
    let tool = with_memories();
    tool.put("l", vec![0; 65_537]);
    tool.put("OUT", ACCEPTED_SHEET);
    let said = tool.asked(&run_words(&["--sheet", "OUT", "t"]));
    said.ends(UNUSABLE).prints(&["t: no verdict"]);
    said.complains("l: ").complains("65536").complains("65537");
    has_files_alone(&tool);
}

#[test]
fn no_events_over_empty_memories_are_run() {
    let tool = with_memories();
    tool.put("t", file(0, 0, &[]));
    for name in ["g", "s", "l"] {
        tool.put(name, "");
    }
    tool.asked(&run_words(&["t"])).ends(ACCEPTED);
    has_results(&tool, b"", b"", b"");
}

#[test]
fn memories_of_the_greatest_length_are_run() {
    let tool = with_memories();
    let (global, shared) = (vec![1; 65_536], vec![2; 65_536]);
    tool.put("t", file(65_536, 65_536, &[bulk_copy(0, 0, 65_536)]));
    tool.put("g", global);
    tool.put("s", &shared);
    tool.asked(&run_words(&["t"])).ends(ACCEPTED);
    has_results(&tool, LOADS_BYTES, &shared, &shared);
}

#[test]
fn one_file_may_be_both_memories() {
    let tool = with_memories();
    let words = "run --global g --shared g --loads l --results R t";
    let said = tool.asked(&words.split(' ').collect::<Vec<_>>());
    said.ends(ACCEPTED);
    has_results(&tool, LOADS_AFTER, GLOBAL_BYTES, GLOBAL_BYTES);
    assert_eq!(tool.bytes("g").unwrap(), GLOBAL_BYTES);
}

#[test]
fn options_may_be_given_in_any_order_and_with_an_equals_sign() {
    for words in [
        "run t --results=R --loads=l --shared=s --global=g",
        "run --loads l t --global=g --results R --shared s",
        "run --results R --global g --loads l --shared s -- t",
    ] {
        let tool = with_memories();
        tool.asked(&words.split(' ').collect::<Vec<_>>())
            .ends(ACCEPTED);
        has_results(&tool, LOADS_AFTER, GLOBAL_BYTES, SHARED_AFTER);
    }
}

#[test]
fn names_with_a_leading_dash_are_taken_as_values_of_options() {
    let tool = with_memories();
    for (name, odd) in [("g", "-g"), ("s", "--shared"), ("l", "--help"), ("t", "-")] {
        fs::rename(tool.path(name), tool.path(odd)).expect("a new name");
    }
    let words = "run --global -g --shared --shared --loads --help --results -R ./-";
    let said = tool.asked(&words.split(' ').collect::<Vec<_>>());
    said.ends(ACCEPTED);
    assert_eq!(tool.bytes("-R/loads").unwrap(), LOADS_AFTER);
}

/// The words of a run without those at this place.
fn without(place: usize) -> Vec<&'static str> {
    let mut words = run_words(&["t"]);
    words.drain(place..place + 2);
    words
}

#[test]
fn a_missing_option_is_named() {
    let tool = with_memories();
    for (option, place) in [
        ("--global", 1),
        ("--shared", 3),
        ("--loads", 5),
        ("--results", 7),
    ] {
        let said = tool.asked(&without(place));
        said.ends(UNUSABLE).prints(&[]);
        said.complains(option).complains("lorvisk run --help");
    }
    untouched(&tool);
}

#[test]
fn wrong_words_of_a_run_are_refused_before_anything_is_touched() {
    let tool = with_memories();
    for more in [
        vec!["t", "--global", "g"],
        vec!["t", "--shared=s"],
        vec!["t", "--loads=l"],
        vec!["t", "--results", "R"],
        vec!["t", "--sheet", "OUT", "--sheet", "OUT"],
        vec!["t", "--sheet", "-"],
        vec!["t", "--sheet"],
        vec!["t", "--sheet="],
        vec!["t", "--record", "l"],
        vec!["t", "-g", "g"],
        vec!["t", "t"],
        vec![],
        vec!["t", "--help"],
    ] {
        let said = tool.asked(&run_words(&more));
        said.ends(UNUSABLE);
        assert!(said.out.is_empty() || more.contains(&"--help"), "{said:#?}");
    }
    untouched(&tool);
}

/// Files and older results are as they were.
#[track_caller]
fn untouched(tool: &Installed) {
    has_results(tool, b"old", b"old", b"old");
    assert_eq!(tool.names("."), ["R", "g", "l", "s", "t"]);
}
