//! `explain` where the judge's answer and the second program's reading disagree: the verdict stays the judge's, and the
//! words say that no ground is found, as its help promises.

mod common;

use common::installed::Installed;
use common::lists::*;
use common::said::{ACCEPTED, REFUSED};
use common::stand_ins::writes;
use common::trace::*;

/// What is explained of a file whose judge gives this answer whatever it reads.
#[track_caller]
fn no_ground_is_found(bytes: &[u8], answer: Vec<u8>) {
    let tool = Installed::new().with("lorvisk_judge", &writes(&answer));
    tool.put("a", bytes);
    let said = tool.asked(&["explain", "a"]);
    let accepts = answer[10] == 1;
    said.ends(if accepts { ACCEPTED } else { REFUSED });
    said.says("finds no ground for this answer").is_content();
    assert_eq!(said.out.lines().count(), 2, "{said:#?}");
}

#[test]
fn a_fault_that_is_not_there_has_no_ground() {
    for code in 2..=4 {
        no_ground_is_found(&ACCEPTED_FILE, sheet(code, 0, 0, 0));
    }
    for code in 5..=9 {
        for event in 0..3 {
            no_ground_is_found(&ACCEPTED_FILE, sheet(code, event, 0, 0));
        }
    }
    no_ground_is_found(&ACCEPTED_FILE, sheet(11, 3, 0, 0));
}

#[test]
fn another_fault_than_the_one_that_is_there_has_no_ground() {
    let cut = &ACCEPTED_FILE[..47];
    for answer in [sheet(3, 0, 0, 0), sheet(4, 0, 0, 0), sheet(9, 0, 0, 0)] {
        no_ground_is_found(cut, answer);
    }
    let unaligned = file_of(&[load(GLOBAL, 4, 2)]);
    no_ground_is_found(&unaligned, sheet(9, 0, 0, 0));
}

#[test]
fn a_clash_of_events_that_share_nothing_or_are_not_there_has_no_ground() {
    for (event, partner) in [(1, 0), (2, 1), (3, 0), (1_023, 0), (1_023, 1_022)] {
        no_ground_is_found(&ACCEPTED_FILE, sheet(10, event, partner, 0));
    }
    no_ground_is_found(&ACCEPTED_FILE[..47], sheet(10, 1, 0, 0));
    no_ground_is_found(b"", sheet(10, 1, 0, 0));
}

#[test]
fn an_acceptance_of_a_file_of_the_wrong_shape_has_no_ground() {
    no_ground_is_found(&ACCEPTED_FILE[..47], ACCEPTED_SHEET.to_vec());
    no_ground_is_found(b"", ACCEPTED_SHEET.to_vec());
}

#[test]
fn an_acceptance_of_a_file_that_clashes_has_no_ground() {
    no_ground_is_found(&refused_file(), sheet(1, 2, 0, 1));
}

#[test]
fn an_acceptance_of_a_file_with_a_fault_has_no_ground() {
    let unaligned = file_of(&[load(GLOBAL, 4, 2)]);
    no_ground_is_found(&unaligned, sheet(1, 1, 0, 0));
}

#[test]
fn a_clash_with_an_operation_that_a_wait_has_closed_has_no_ground() {
    no_ground_is_found(&ACCEPTED_FILE, sheet(10, 2, 0, 0));
}

#[test]
fn an_unknown_kind_of_an_event_that_is_not_there_has_no_ground() {
    no_ground_is_found(&ACCEPTED_FILE, sheet(5, 3, 0, 0));
}
