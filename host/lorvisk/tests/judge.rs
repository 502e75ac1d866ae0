//! `judge`: the words and the status of each answer, several files, standard input.

mod common;

use common::installed::Installed;
use common::lists::*;
use common::said::{ACCEPTED, NO_VERDICT, REFUSED, UNUSABLE};
use common::trace::*;
use std::fs::File;
use std::io::Write;

#[test]
fn the_files_of_these_tests_are_laid_out_as_the_document_lays_them_out() {
    assert_eq!(file(16, 16, &k1()), ACCEPTED_FILE);
    assert_eq!(sheet(1, 3, 0, 1), ACCEPTED_SHEET);
    assert_eq!(sheet(10, 1, 0, 0), REFUSED_SHEET);
}

#[test]
fn the_documents_file_is_accepted() {
    let tool = Installed::new();
    tool.put("a.trace", ACCEPTED_FILE);
    let line = format!("a.trace: {ACCEPTED_LINE}");
    let said = tool.asked(&["judge", "a.trace"]);
    said.ends(ACCEPTED).prints(&[&line]).is_content();
}

#[test]
fn without_its_wait_it_is_refused() {
    let tool = Installed::new();
    tool.put("a.trace", refused_file());
    let line = format!("a.trace: {REFUSED_LINE}");
    let said = tool.asked(&["judge", "a.trace"]);
    said.ends(REFUSED).prints(&[&line]).is_content();
}

/// Files that get codes 2 to 9, and the words for each.
fn faults() -> Vec<(Vec<u8>, &'static str)> {
    let cut = ACCEPTED_FILE[..47].to_vec();
    let many: Vec<Event> = (0..1_025).map(|_| commit()).collect();
    let second = |event| file_of(&[commit(), event]);
    vec![
        (cut, "refused (2): the file's shape is wrong"),
        (file(16, 16, &many), "refused (3): more events than 1,024"),
        (
            file(65_537, 16, &[]),
            "refused (4): a memory's length is over 65,536 bytes, or in a run not that of the memory lent",
        ),
        (
            second(event(20, &[])),
            "refused (5): event 1 has an unknown kind",
        ),
        (
            second(event(17, &[0])),
            "refused (6): event 1 has a body of the wrong length",
        ),
        (
            second(copy_part(0, 0, 5, 4)),
            "refused (7): event 1 has a field that is not allowed",
        ),
        (second(copy(4, 0, 8)), "refused (8): event 1 is not aligned"),
        (
            second(load(GLOBAL, 16, 4_294_967_280)),
            "refused (9): event 1 is out of range",
        ),
    ]
}

#[test]
fn each_fault_has_its_code_its_words_and_status_1() {
    let tool = Installed::new();
    for (bytes, words) in faults() {
        tool.put("a", bytes);
        let line = format!("a: {words}");
        let said = tool.asked(&["judge", "a"]);
        said.ends(REFUSED).prints(&[&line]).is_content();
    }
}

#[test]
fn the_documents_accepted_traces_are_accepted() {
    let tool = Installed::new();
    for (events, words) in [
        (k1(), "3 events, at most 1 operation open"),
        (k3(), "4 events, at most 1 operation open"),
        (k5(16), "8 events, at most 3 operations open"),
        (k7(3), "2 events, at most 1 operation open"),
        (k8(ADD), "3 events, at most 2 operations open"),
        (vec![], "0 events, at most 0 operations open"),
        (vec![commit()], "1 event, at most 0 operations open"),
    ] {
        tool.put("a", file_of(&events));
        let line = format!("a: accepted (1): {words}");
        let said = tool.asked(&["judge", "a"]);
        said.ends(ACCEPTED).prints(&[&line]).is_content();
    }
}

#[test]
fn the_documents_clashing_traces_are_refused() {
    let tool = Installed::new();
    for (events, event, partner) in [
        (k2(), 1, 0),
        (k4(), 2, 0),
        (k5(32), 7, 4),
        (k6(), 2, 0),
        (k7(2), 1, 0),
        (k8(MAX), 1, 0),
        (k9(), 2, 0),
    ] {
        tool.put("a", file_of(&events));
        let line = format!("a: refused (10): event {event} clashes with event {partner}");
        let said = tool.asked(&["judge", "a"]);
        said.ends(REFUSED).prints(&[&line]).is_content();
    }
}

#[test]
fn a_list_of_1024_events_is_accepted() {
    let tool = Installed::new();
    let many: Vec<Event> = (0..1_024).map(|_| commit()).collect();
    tool.put("a", file(65_536, 65_536, &many));
    let line = "a: accepted (1): 1024 events, at most 0 operations open";
    tool.asked(&["judge", "a"]).ends(ACCEPTED).prints(&[line]);
}

#[test]
fn standard_input_is_judged_as_a_file_is() {
    let tool = Installed::new();
    tool.put("good", ACCEPTED_FILE);
    tool.put("bad", refused_file());
    let good = format!("standard input: {ACCEPTED_LINE}");
    let bad = format!("standard input: {REFUSED_LINE}");
    let said = tool.asked_from(&["judge", "-"], "good");
    said.ends(ACCEPTED).prints(&[&good]).is_content();
    let said = tool.asked_from(&["judge", "-"], "bad");
    said.ends(REFUSED).prints(&[&bad]).is_content();
    let said = tool.asked_through_pipe(&["judge", "-"], &ACCEPTED_FILE);
    said.ends(ACCEPTED).prints(&[&good]).is_content();
    let said = tool.asked_through_pipe(&["judge", "-"], &ACCEPTED_FILE[..47]);
    said.ends(REFUSED);
    tool.has_no_temporary_files();
}

/// As a shell hands over what another command writes: `judge <(gunzip <a.gz)`.
#[test]
fn a_pipe_by_its_name_is_judged() {
    let tool = Installed::new();
    let said = tool.asked_through_pipe(&["judge", "/dev/stdin"], &ACCEPTED_FILE);
    let line = format!("/dev/stdin: {ACCEPTED_LINE}");
    said.ends(ACCEPTED).prints(&[&line]);
}

#[test]
fn several_files_have_a_line_each_in_their_order_and_the_worst_status() {
    let tool = Installed::new();
    tool.put("good", ACCEPTED_FILE);
    tool.put("bad", refused_file());
    let good = format!("good: {ACCEPTED_LINE}");
    let bad = format!("bad: {REFUSED_LINE}");
    let input = format!("standard input: {ACCEPTED_LINE}");
    let said = tool.asked(&["judge", "good", "good"]);
    said.ends(ACCEPTED).prints(&[&good, &good]);
    let said = tool.asked(&["judge", "good", "bad", "good"]);
    said.ends(REFUSED).prints(&[&good, &bad, &good]);
    let said = tool.asked(&["judge", "bad", "good"]);
    said.ends(REFUSED).prints(&[&bad, &good]);
    let said = tool.asked_from(&["judge", "bad", "-", "good"], "good");
    said.ends(REFUSED).prints(&[&bad, &input, &good]);
}

#[test]
fn files_after_one_that_cannot_be_read_are_judged_all_the_same() {
    let tool = Installed::new();
    tool.put("good", ACCEPTED_FILE);
    tool.put("bad", refused_file());
    let good = format!("good: {ACCEPTED_LINE}");
    let bad = format!("bad: {REFUSED_LINE}");
    let gone = "gone: no verdict";
    let said = tool.asked(&["judge", "good", "gone", "bad", "good"]);
    let lines = [good.as_str(), gone, &bad, &good];
    said.ends(UNUSABLE).prints(&lines).complains("gone");
    let said = tool.asked(&["judge", "gone", "good"]);
    said.ends(UNUSABLE).prints(&[gone, &good]);
    let said = tool.asked(&["judge", "bad", "gone"]);
    said.ends(UNUSABLE).prints(&[&bad, gone]);
}

#[test]
fn many_files_have_a_line_each() {
    let tool = Installed::new();
    tool.put("good", ACCEPTED_FILE);
    let words: Vec<&str> = ["judge"].into_iter().chain(["good"; 100]).collect();
    let line = format!("good: {ACCEPTED_LINE}");
    tool.asked(&words)
        .ends(ACCEPTED)
        .prints(&[line.as_str(); 100]);
}

#[test]
fn an_empty_file_is_refused() {
    let tool = Installed::new();
    tool.put("a", "");
    let line = "refused (2): the file's shape is wrong";
    let said = tool.asked(&["judge", "a"]);
    said.ends(REFUSED).prints(&[&format!("a: {line}")]);
    let said = tool.asked(&["judge", "-"]);
    said.ends(REFUSED)
        .prints(&[&format!("standard input: {line}")]);
}

/// Five gigabytes that take no place on the disk: an accepted file, and zeros after it.
#[test]
fn a_file_of_5_gigabytes_is_read_to_its_end_and_refused() {
    let tool = Installed::new();
    let mut long = File::create(tool.path("long")).expect("a file");
    long.write_all(&ACCEPTED_FILE).expect("bytes");
    long.set_len(5_000_000_000).expect("a sparse file");
    let line = "long: refused (2): the file's shape is wrong";
    tool.asked(&["judge", "long"]).ends(REFUSED).prints(&[line]);
}

/// The memory of a process can be opened, and its first byte cannot be read.
#[test]
fn a_file_that_fails_while_it_is_read_has_no_verdict() {
    let tool = Installed::new();
    tool.put("OUT", ACCEPTED_SHEET);
    let said = tool.asked(&["judge", "--sheet", "OUT", "/proc/self/mem"]);
    said.ends(NO_VERDICT)
        .prints(&["/proc/self/mem: no verdict"]);
    assert_eq!(tool.names("."), [""; 0]);
}

#[test]
fn a_folder_as_standard_input_has_no_verdict() {
    let tool = Installed::new();
    let said = tool.asked_from(&["judge", "-"], ".");
    let said = said.does_not_accept();
    said.prints(&["standard input: no verdict"]);
}
