//! `explain`: for a clash both events, the bytes that they share and the wait that would have closed the partner; for a
//! fault the field and what is allowed.

mod common;

use common::installed::Installed;
use common::lists::*;
use common::said::{ACCEPTED, REFUSED, UNUSABLE};
use common::stand_ins::ON_A_FULL_DISK;
use common::trace::*;

/// The words about a list that clashes, each a line, and the list changed by hand as the last of them says.
#[track_caller]
fn is_explained_and_mended(clashing: &[Event], lines: &[&str], mended: &[Event]) {
    let tool = Installed::new();
    tool.put("a", file_of(clashing));
    let judged = tool.asked(&["judge", "a"]);
    let said = tool.asked(&["explain", "a"]);
    said.ends(REFUSED).is_content().says(&judged.out);
    said.says("a: refused (10): ");
    for line in lines {
        said.says_line(line);
    }
    tool.put("a", file_of(mended));
    tool.asked(&["judge", "a"]).ends(ACCEPTED);
    tool.asked(&["explain", "a"]).ends(ACCEPTED);
}

#[test]
fn k2_a_copy_that_nobody_committed() {
    let lines = [
        "event 1: load of 4 bytes at shared 0",
        "event 0: copy of 4 bytes from global 0 to shared 0",
        "event 1 reads and event 0 writes shared bytes 0 to 3",
        "nobody committed event 0",
        "a wait-all before event 1 would have closed event 0",
    ];
    let mended = [copy(0, 0, 4), wait_all(), load(SHARED, 4, 0)];
    is_explained_and_mended(&k2(), &lines, &mended);
}

#[test]
fn k4_a_wait_that_closes_no_copy_that_nobody_committed() {
    let lines = [
        "event 2: load of 4 bytes at shared 0",
        "event 0: copy of 4 bytes from global 0 to shared 0",
        "event 2 reads and event 0 writes shared bytes 0 to 3",
        "nobody committed event 0, so event 1 (wait 0) did not close it",
        "a wait-all before event 2 would have closed event 0",
    ];
    let mended = [copy(0, 0, 4), wait(0), wait_all(), load(SHARED, 4, 0)];
    is_explained_and_mended(&k4(), &lines, &mended);
}

#[test]
fn k5_a_wait_that_leaves_the_newest_group_open() {
    let lines = [
        "event 7: load of 16 bytes at shared 32",
        "event 4: copy of 16 bytes from global 32 to shared 32",
        "event 7 reads and event 4 writes shared bytes 32 to 47",
        "a wait 0 at event 6 would have closed event 4",
    ];
    let mut mended = k5(32);
    mended[6] = wait(0);
    is_explained_and_mended(&k5(32), &lines, &mended);
}

#[test]
fn k6_a_copy_to_the_place_of_a_committed_one() {
    let lines = [
        "event 2: copy of 4 bytes from global 4 to shared 0",
        "event 0: copy of 4 bytes from global 0 to shared 0",
        "event 2 writes and event 0 writes shared bytes 0 to 3",
        "event 0 was committed at event 1, and no wait followed",
        "a wait 0 before event 2 would have closed event 0",
    ];
    let mended = [copy(0, 0, 4), commit(), wait(0), copy(0, 4, 4)];
    is_explained_and_mended(&k6(), &lines, &mended);
}

#[test]
fn k7_a_store_to_the_last_byte_that_a_copy_reads() {
    let lines = [
        "event 1: store of 1 byte at global 2",
        "event 0: copy of 3 of 4 bytes from global 0 to shared 0 (the other byte zero)",
        "event 1 writes and event 0 reads global byte 2",
        "a wait-all before event 1 would have closed event 0",
    ];
    let mended = [copy_part(0, 0, 3, 4), wait_all(), store(GLOBAL, 2, &[7])];
    is_explained_and_mended(&k7(2), &lines, &mended);
}

#[test]
fn k8_two_reductions_of_two_operations() {
    let lines = [
        "event 1: bulk reduction (max, u32) of 16 bytes at shared 16 into global 0",
        "event 0: bulk reduction (add, u32) of 16 bytes at shared 0 into global 0",
        "event 1 writes and event 0 writes global bytes 0 to 15",
        "a bulk commit and then a bulk wait 0 before event 1 would have closed event 0",
    ];
    let mut mended = k8(MAX);
    mended.insert(1, bulk_commit());
    mended.insert(2, bulk_wait(0));
    is_explained_and_mended(&k8(MAX), &lines, &mended);
}

#[test]
fn k9_a_wait_of_the_other_chain() {
    let lines = [
        "event 2: load of 4 bytes at global 4",
        "event 0: bulk reduction (add, u32) of 16 bytes at shared 0 into global 0",
        "event 2 reads and event 0 writes global bytes 4 to 7",
        "event 1 (wait-all) closes operations of the other chain alone",
        "a bulk commit and then a bulk wait 0 before event 2 would have closed event 0",
    ];
    let mut mended = k9();
    mended.insert(2, bulk_commit());
    mended.insert(3, bulk_wait(0));
    is_explained_and_mended(&k9(), &lines, &mended);
}

/// Empty groups count, and the wait that is told leaves them open.
#[test]
fn a_wait_is_told_with_the_groups_that_it_may_leave_open() {
    let clashing = [
        bulk_copy(0, 0, 16),
        bulk_commit(),
        bulk_commit(),
        bulk_copy(16, 16, 16),
        bulk_commit(),
        bulk_wait(4_294_967_295),
        store(SHARED, 0, &[1, 2]),
    ];
    let lines = [
        "event 6: store of 2 bytes at shared 0",
        "event 0: bulk copy of 16 bytes from shared 0 to global 0",
        "event 6 writes and event 0 reads shared bytes 0 to 1",
        "a bulk wait 2 at event 5 would have closed event 0",
    ];
    let mut mended = clashing.to_vec();
    mended[5] = bulk_wait(2);
    is_explained_and_mended(&clashing, &lines, &mended);
}

#[test]
fn a_committed_operation_without_a_wait_is_told_one_that_leaves_newer_groups_open() {
    let clashing = [
        copy(0, 0, 16),
        commit(),
        copy(16, 16, 16),
        commit(),
        load(SHARED, 16, 0),
    ];
    let lines = ["a wait 1 before event 4 would have closed event 0"];
    let mut mended = clashing.to_vec();
    mended.insert(4, wait(1));
    is_explained_and_mended(&clashing, &lines, &mended);
}

/// The groups made after the last wait are none that it could have left open.
#[test]
fn a_wait_is_told_without_the_groups_that_came_after_it() {
    let clashing = [
        copy(0, 0, 16),
        commit(),
        copy(16, 16, 16),
        commit(),
        wait(2),
        copy(32, 32, 16),
        commit(),
        load(SHARED, 4, 0),
    ];
    let lines = ["a wait 1 at event 4 would have closed event 0"];
    let mut mended = clashing.to_vec();
    mended[4] = wait(1);
    is_explained_and_mended(&clashing, &lines, &mended);
}

#[test]
fn both_memories_are_told_where_both_are_shared() {
    let clashing = [copy(0, 16, 16), bulk_copy(16, 0, 16)];
    let lines = [
        "event 1 reads and event 0 writes shared bytes 0 to 15",
        "event 1 writes and event 0 reads global bytes 16 to 31",
    ];
    let mended = [copy(0, 16, 16), wait_all(), bulk_copy(16, 0, 16)];
    is_explained_and_mended(&clashing, &lines, &mended);
}

/// Files of codes 2 to 4, and what is said of each: what the file holds, and what is allowed.
fn faults_of_shape() -> Vec<(Vec<u8>, u16, [&'static str; 2])> {
    let changed = |place: usize, byte| {
        let mut bytes = ACCEPTED_FILE.to_vec();
        bytes[place] = byte;
        bytes
    };
    let longer = [ACCEPTED_FILE.as_slice(), &[0]].concat();
    let many: Vec<Event> = (0..1_025).map(|_| commit()).collect();
    vec![
        (vec![], 2, ["0 bytes", "12"]),
        (ACCEPTED_FILE[..11].to_vec(), 2, ["11 bytes", "12"]),
        (ACCEPTED_FILE[..23].to_vec(), 2, ["23 bytes", "24"]),
        (ACCEPTED_FILE[..47].to_vec(), 2, ["event 2", "8 bytes"]),
        (longer, 2, ["49 bytes", "48"]),
        (changed(2, 1), 2, ["bytes 2 and 3", "zero"]),
        (changed(13, 1), 2, ["entry 0", "zero"]),
        (file(16, 16, &many), 3, ["1025", "1,024"]),
        (changed(6, 1), 4, ["global length is 65552", "65,536"]),
        (changed(10, 1), 4, ["shared length is 65552", "65,536"]),
    ]
}

/// Events of codes 5 and 6 and thread events of code 7, and what is said of each.
fn faults_of_kinds() -> Vec<(Event, u16, [&'static str; 2])> {
    let mut past_size = store(GLOBAL, 0, &[1]);
    past_size.body[9] = 3;
    let kinds = "1 to 2, 16 to 19 and 32 to 35";
    vec![
        (event(36, &[]), 5, ["kind 36", kinds]),
        (event(0, &[]), 5, ["kind 0", kinds]),
        (event(16, &[0; 15]), 6, ["copy", "16"]),
        (event(17, &[0]), 6, ["commit", "0"]),
        (load(2, 4, 0), 7, ["space is 2", "0 is global, 1 is shared"]),
        (load(0, 3, 0), 7, ["size is 3", "1, 2, 4, 8 or 16"]),
        (past_size, 7, ["value byte 1 is 3", "zero"]),
    ]
}

/// Operations of code 7, and what is said of each.
fn faults_of_fields() -> Vec<(Event, u16, [&'static str; 2])> {
    let copied = |src_size, last| copy_with(0, 0, src_size, last);
    let reduced = |operation, element| reduction(0, 0, 16, operation, element);
    vec![
        (copied(0, [5, 0, 0, 0]), 7, ["cp-size is 5", "4, 8 or 16"]),
        (copied(5, [4, 1, 0, 0]), 7, ["src-size is 5", "at most"]),
        (copied(1, [4, 0, 0, 0]), 7, ["src-size is 1", "zero"]),
        (copied(0, [4, 3, 0, 0]), 7, ["mode is 3", "0 is plain"]),
        (copied(0, [8, 0, 1, 0]), 7, ["cache is 1", "cp-size 16"]),
        (copied(0, [4, 0, 0, 9]), 7, ["is 9", "zero"]),
        (bulk_copy(0, 0, 24), 7, ["size is 24", "multiple of 16"]),
        (bulk_copy(0, 0, 0), 7, ["size is 0", "not zero"]),
        (reduced(6, 0), 7, ["operation is 6", "0 is and"]),
        (reduced(3, 3), 7, ["type is 3", "0 is b32"]),
        (reduced(2, S32), 7, ["xor", "b32"]),
    ]
}

/// Events of codes 8 and 9, and what is said of each.
fn faults_of_place() -> Vec<(Event, u16, [&'static str; 2])> {
    vec![
        (copy(4, 0, 8), 8, ["shared address 4", "multiple of 8"]),
        (copy(0, 4, 8), 8, ["global address 4", "multiple of 8"]),
        (
            load(SHARED, 8, 68),
            8,
            ["shared address 68", "multiple of 8"],
        ),
        (
            bulk_copy(8, 0, 16),
            8,
            ["global address 8", "multiple of 16"],
        ),
        (load(GLOBAL, 1, 64), 9, ["global", "64 bytes"]),
        (
            load(GLOBAL, 16, 4_294_967_280),
            9,
            ["4294967280 to 4294967295", "global memory has 64 bytes"],
        ),
        (copy(64, 0, 4), 9, ["shared bytes 64 to 67", "64 bytes"]),
        (
            bulk_copy(0, 48, 32),
            9,
            ["shared bytes 48 to 79", "64 bytes"],
        ),
    ]
}

#[test]
fn a_fault_of_shape_is_told_with_what_is_there_and_what_is_allowed() {
    let tool = Installed::new();
    for (bytes, code, words) in faults_of_shape() {
        tool.put("a", bytes);
        let said = tool.asked(&["explain", "a"]);
        said.ends(REFUSED).is_content();
        said.says(&format!("a: refused ({code}): "));
        said.says(words[0]).says(words[1]).does_not_say("no ground");
    }
}

#[test]
fn a_fault_of_an_event_is_told_with_its_field_and_what_is_allowed() {
    let tool = Installed::new();
    let faults = [faults_of_kinds(), faults_of_fields(), faults_of_place()];
    for (event, code, words) in faults.into_iter().flatten() {
        tool.put("a", file_of(&[commit(), event]));
        let said = tool.asked(&["explain", "a"]);
        said.ends(REFUSED).is_content();
        said.says(&format!("a: refused ({code}): event 1 "));
        said.says("  event 1: ").says(words[0]).says(words[1]);
        said.does_not_say("no ground");
    }
}

#[test]
fn an_accepted_file_is_explained_in_few_words() {
    let tool = Installed::new();
    tool.put("a", ACCEPTED_FILE);
    let said = tool.asked(&["explain", "a"]);
    said.ends(ACCEPTED).is_content();
    let judged = format!("a: {ACCEPTED_LINE}");
    said.prints(&[&judged, "  no two accesses clash"]);
}

#[test]
fn standard_input_is_explained_as_a_file_is() {
    let tool = Installed::new();
    tool.put("a", file_of(&k5(32)));
    let said = tool.asked(&["explain", "a"]);
    let expected = said.out.replacen("a: ", "standard input: ", 1);
    let from_file = tool.asked_from(&["explain", "-"], "a");
    assert_eq!(from_file.ends(REFUSED).is_content().out, expected);
    let piped = tool.asked_through_pipe(&["explain", "-"], &file_of(&k5(32)));
    assert_eq!(piped.ends(REFUSED).is_content().out, expected);
    let said = tool.asked_through_pipe(&["explain", "-"], &ACCEPTED_FILE);
    said.ends(ACCEPTED);
    tool.has_no_temporary_files();
}

/// As a shell hands over what another command writes: `explain <(gunzip <a.gz)`.
#[test]
fn a_pipe_by_its_name_is_explained_as_a_file_is() {
    let tool = Installed::new();
    let said = tool.asked_through_pipe(&["explain", "/dev/stdin"], &refused_file());
    said.ends(REFUSED).is_content();
    said.says_line("a wait-all before event 1 would have closed event 0");
}

/// A shell keeps its number when it becomes the tool, so it knows the name that the tool gives to its copy.
#[test]
fn the_copy_of_standard_input_goes_through_no_link_that_stands_there() {
    let tool = Installed::new();
    tool.put("a", refused_file());
    tool.put("victim", "mine");
    let line = "ln -s \"$PWD/victim\" \"$TMPDIR/.lorvisk-$$-0\"; exec \"$0\" \"$@\" <a";
    let said = tool.asked_by_shell(line, &["explain", "-"]);
    said.does_not_accept();
    assert_eq!(tool.bytes("victim").unwrap(), b"mine");
}

#[test]
fn standard_input_that_a_full_disk_cannot_keep_is_unusable() {
    let tool = Installed::new();
    tool.put("a", ACCEPTED_FILE);
    let line = format!("exec <a; {ON_A_FULL_DISK}");
    let said = tool.asked_by_shell(&line, &["explain", "-"]);
    said.ends(UNUSABLE).prints(&["standard input: no verdict"]);
    tool.has_no_temporary_files();
}

#[test]
fn standard_input_that_cannot_be_kept_is_unusable() {
    let tool = Installed::new();
    tool.put("a", ACCEPTED_FILE);
    let line = "TMPDIR=gone exec \"$0\" \"$@\" <a";
    let said = tool.asked_by_shell(line, &["explain", "-"]);
    said.ends(UNUSABLE).prints(&["standard input: no verdict"]);
    said.complains("lorvisk: standard input: ");
}

/// A file longer than any of the right shape, which takes no place on the disk.
#[test]
fn the_length_that_is_told_of_a_long_file_is_its_own() {
    let tool = Installed::new();
    let long = std::fs::File::create(tool.path("a")).expect("a file");
    long.set_len(70_000_000).expect("a sparse file");
    let said = tool.asked(&["explain", "a"]);
    said.ends(REFUSED).says("a: refused (2): ");
    let other = |line: &str| line.contains("the file has ") && !line.contains("70000000");
    assert!(!said.out.lines().any(other), "{said:#?}");
}

#[test]
fn one_file_is_explained_at_a_time() {
    let tool = Installed::new();
    tool.put("a", ACCEPTED_FILE);
    for words in [
        vec!["explain"],
        vec!["explain", "a", "a"],
        vec!["explain", "-", "-"],
    ] {
        let said = tool.asked(&words);
        said.ends(UNUSABLE).prints(&[]);
        said.complains("lorvisk explain --help");
    }
}
