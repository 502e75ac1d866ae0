//! `sheet`: what a verdict sheet says; cut, longer or wrong it says nothing.

mod common;

use common::installed::Installed;
use common::lists::*;
use common::said::{Said, ACCEPTED, NO_VERDICT, REFUSED, UNUSABLE};
use common::trace::*;

#[track_caller]
fn has_no_verdict(said: &Said) {
    said.ends(NO_VERDICT).prints(&["a: no verdict"]);
    said.complains("lorvisk: a: ").complains("no verdict");
}

#[test]
fn the_documents_sheets_are_read() {
    let tool = Installed::new();
    tool.put("a", ACCEPTED_SHEET);
    let said = tool.asked(&["sheet", "a"]);
    said.ends(ACCEPTED).is_content();
    said.prints(&[&format!("a: {ACCEPTED_LINE}")]);
    tool.put("a", REFUSED_SHEET);
    let said = tool.asked(&["sheet", "a"]);
    said.ends(REFUSED).is_content();
    said.prints(&[&format!("a: {REFUSED_LINE}")]);
}

/// A sheet of each code, and its words.
const EACH_CODE: [([u16; 4], &str); 12] = [
    (
        [1, 0, 0, 0],
        "accepted (1): 0 events, at most 0 operations open",
    ),
    (
        [1, 1_024, 0, 1_024],
        "accepted (1): 1024 events, at most 1024 operations open",
    ),
    ([2, 0, 0, 0], "refused (2): the file's shape is wrong"),
    ([3, 0, 0, 0], "refused (3): more events than 1,024"),
    (
        [4, 0, 0, 0],
        "refused (4): a memory's length is over 65,536 bytes, or in a run not that of the memory lent",
    ),
    ([5, 7, 0, 0], "refused (5): event 7 has an unknown kind"),
    (
        [6, 7, 0, 0],
        "refused (6): event 7 has a body of the wrong length",
    ),
    (
        [7, 7, 0, 0],
        "refused (7): event 7 has a field that is not allowed",
    ),
    ([8, 7, 0, 0], "refused (8): event 7 is not aligned"),
    ([9, 1_023, 0, 0], "refused (9): event 1023 is out of range"),
    ([10, 7, 4, 0], "refused (10): event 7 clashes with event 4"),
    (
        [11, 1_024, 0, 0],
        "refused (11): the loads do not fit the load record",
    ),
];

#[test]
fn each_code_has_its_words_and_status() {
    let tool = Installed::new();
    for ([code, event, partner, peak], words) in EACH_CODE {
        tool.put("a", sheet(code, event, partner, peak));
        let said = tool.asked(&["sheet", "a"]);
        said.ends(if code == 1 { ACCEPTED } else { REFUSED });
        said.prints(&[&format!("a: {words}")]).is_content();
    }
}

#[test]
fn a_cut_that_is_filled_with_zeros_says_nothing_until_its_code_is_there() {
    let tool = Installed::new();
    for (whole, status) in [(ACCEPTED_SHEET, ACCEPTED), (REFUSED_SHEET, REFUSED)] {
        for kept in 0..=12 {
            let mut cut = [0; 12];
            cut[..kept].copy_from_slice(&whole[..kept]);
            tool.put("a", cut);
            let said = tool.asked(&["sheet", "a"]);
            match kept {
                0..=10 => has_no_verdict(&said),
                _ => drop(said.ends(status).is_content()),
            }
        }
    }
}

#[test]
fn a_sheet_that_is_shorter_or_longer_says_nothing() {
    let tool = Installed::new();
    for whole in [ACCEPTED_SHEET, REFUSED_SHEET] {
        for kept in 0..12 {
            tool.put("a", &whole[..kept]);
            has_no_verdict(&tool.asked(&["sheet", "a"]));
        }
        for more in [&[0][..], b"\n", &whole, &[0; 100_000]] {
            tool.put("a", [&whole, more].concat());
            has_no_verdict(&tool.asked(&["sheet", "a"]));
        }
    }
}

#[test]
fn numbers_that_do_not_fit_say_nothing() {
    let tool = Installed::new();
    for bytes in [
        sheet(0, 0, 0, 0),
        sheet(12, 0, 0, 0),
        sheet(0x0101, 0, 0, 0),
        sheet(1, 1_025, 0, 0),
        sheet(1, 3, 1, 1),
        sheet(1, 3, 0, 4),
        sheet(2, 1, 0, 0),
        sheet(4, 0, 0, 1),
        sheet(5, 1_024, 0, 0),
        sheet(9, 0, 1, 0),
        sheet(10, 1, 1, 0),
        sheet(10, 1_024, 0, 0),
        sheet(10, 2, 1, 1),
        sheet(11, 1_025, 0, 0),
    ] {
        tool.put("a", bytes);
        has_no_verdict(&tool.asked(&["sheet", "a"]));
    }
}

#[test]
fn a_wrong_table_says_nothing() {
    let tool = Installed::new();
    for place in 0..4 {
        let mut bytes = ACCEPTED_SHEET;
        bytes[place] ^= 1;
        tool.put("a", bytes);
        has_no_verdict(&tool.asked(&["sheet", "a"]));
    }
}

#[test]
fn a_trace_file_is_no_sheet_and_a_sheet_no_accepted_trace() {
    let tool = Installed::new();
    tool.put("a", ACCEPTED_FILE);
    has_no_verdict(&tool.asked(&["sheet", "a"]));
    tool.put("a", ACCEPTED_SHEET);
    tool.asked(&["judge", "a"]).ends(REFUSED);
}

#[test]
fn standard_input_is_read_as_a_file_is() {
    let tool = Installed::new();
    tool.put("a", REFUSED_SHEET);
    let accepted = format!("standard input: {ACCEPTED_LINE}");
    let refused = format!("standard input: {REFUSED_LINE}");
    let said = tool.asked_from(&["sheet", "-"], "a");
    said.ends(REFUSED).prints(&[&refused]).is_content();
    let said = tool.asked_through_pipe(&["sheet", "-"], &ACCEPTED_SHEET);
    said.ends(ACCEPTED).prints(&[&accepted]).is_content();
    let said = tool.asked_through_pipe(&["sheet", "-"], &ACCEPTED_SHEET[..11]);
    said.ends(NO_VERDICT)
        .prints(&["standard input: no verdict"]);
    let said = tool.asked(&["sheet", "-"]);
    said.ends(NO_VERDICT)
        .prints(&["standard input: no verdict"]);
}

#[test]
fn one_sheet_is_read_at_a_time() {
    let tool = Installed::new();
    tool.put("a", ACCEPTED_SHEET);
    for words in [vec!["sheet"], vec!["sheet", "a", "a"]] {
        let said = tool.asked(&words);
        said.ends(UNUSABLE).prints(&[]);
        said.complains("lorvisk sheet --help");
    }
}
