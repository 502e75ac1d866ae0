//! Programs that die, write less, more or something else, or cannot be started: never status 0, and never a sheet.

mod common;

use common::installed::{Installed, PROGRAMS};
use common::lists::*;
use common::said::{Said, ACCEPTED, NO_VERDICT};
use common::stand_ins::*;
use common::trace::sheet;
use std::fs;

/// The tool, the document's file, and an old sheet that accepts.
fn with_old_sheet() -> Installed {
    let tool = Installed::new();
    tool.put("good", ACCEPTED_FILE);
    tool.put("OUT", ACCEPTED_SHEET);
    tool
}

/// A line for the file that says so, and an error that names it.
#[track_caller]
fn has_no_verdict(said: &Said, name: &str) {
    said.ends(NO_VERDICT).complains("no verdict");
    said.prints(&[&format!("{name}: no verdict")]);
    said.complains(&format!("lorvisk: {name}: "));
}

/// `judge`, also with a sheet, and `explain` have no verdict, and nothing is left behind.
#[track_caller]
fn judges_nothing(tool: &Installed) {
    tool.put("OUT", ACCEPTED_SHEET);
    has_no_verdict(&tool.asked(&["judge", "--sheet", "OUT", "good"]), "good");
    assert_eq!(tool.names("."), ["good"]);
    has_no_verdict(&tool.asked(&["judge", "good"]), "good");
    has_no_verdict(&tool.asked(&["explain", "good"]), "good");
    let said = tool.asked_from(&["explain", "-"], "good");
    has_no_verdict(&said, "standard input");
    assert_eq!(tool.names("."), ["good"]);
    tool.has_no_temporary_files();
}

#[test]
fn a_stand_in_that_does_what_its_program_does_is_heard() {
    let tool = with_old_sheet().with("lorvisk_judge", &accepts());
    let said = tool.asked(&["judge", "--sheet", "OUT", "good"]);
    said.ends(ACCEPTED).is_content();
    assert_eq!(tool.bytes("OUT").unwrap(), ACCEPTED_SHEET);
    let tool = with_old_sheet().with("lorvisk_sheet", &writes(b"1 3 0 1\n"));
    tool.asked(&["judge", "good"]).ends(ACCEPTED).is_content();
    tool.asked(&["sheet", "OUT"]).ends(ACCEPTED).is_content();
}

#[test]
fn a_judge_that_dies_has_said_nothing() {
    for judge in [
        "kill -9 $$".to_string(),
        "kill -SEGV $$".to_string(),
        "exit 1".to_string(),
        writes_and(&ACCEPTED_SHEET, "kill -9 $$"),
        writes_and(&ACCEPTED_SHEET, "kill -TERM $$"),
        writes_and(&ACCEPTED_SHEET, "exit 1"),
        writes_and(&ACCEPTED_SHEET, "exit 255"),
        writes_and(&ACCEPTED_SHEET[..6], "kill -9 $$"),
    ] {
        let tool = with_old_sheet().with("lorvisk_judge", &judge);
        judges_nothing(&tool);
        let said = tool.asked(&["judge", "good"]);
        said.complains("lorvisk_judge died");
    }
}

#[test]
fn a_judge_that_writes_less_or_more_than_a_sheet_has_said_nothing() {
    let [mut one_more, mut two_sheets] = [ACCEPTED_SHEET.to_vec(), ACCEPTED_SHEET.to_vec()];
    one_more.push(0);
    two_sheets.extend(ACCEPTED_SHEET);
    for judge in [
        "exit 0".to_string(),
        writes(&ACCEPTED_SHEET[..1]),
        writes(&ACCEPTED_SHEET[..11]),
        writes(&one_more),
        writes(&two_sheets),
        writes_and(&ACCEPTED_SHEET, "echo"),
        writes_and(&ACCEPTED_SHEET, ENDLESS),
        ENDLESS.to_string(),
    ] {
        let tool = with_old_sheet().with("lorvisk_judge", &judge);
        judges_nothing(&tool);
        let said = tool.asked(&["judge", "good"]);
        said.complains("lorvisk_judge wrote");
    }
}

#[test]
fn twelve_bytes_that_are_no_sheet_are_no_verdict() {
    let mut wrong_table = ACCEPTED_SHEET;
    wrong_table[0] = 5;
    let mut longer_body = ACCEPTED_SHEET;
    longer_body[2] = 9;
    let mut high_code = ACCEPTED_SHEET;
    high_code[11] = 1;
    for bytes in [
        [0; 12].to_vec(),
        [0xff; 12].to_vec(),
        b"accepted (1)".to_vec(),
        wrong_table.to_vec(),
        longer_body.to_vec(),
        high_code.to_vec(),
        sheet(0, 0, 0, 0),
        sheet(12, 0, 0, 0),
        sheet(1, 1_025, 0, 0),
        sheet(1, 3, 1, 1),
        sheet(1, 3, 0, 4),
        sheet(2, 1, 0, 0),
        sheet(10, 1, 1, 0),
    ] {
        judges_nothing(&with_old_sheet().with("lorvisk_judge", &writes(&bytes)));
    }
}

#[test]
fn a_reader_of_sheets_that_dies_has_said_nothing() {
    for reader in [
        "kill -9 $$",
        "exit 0",
        "exit 1",
        "echo 1 3 0 1; kill -9 $$",
        "echo 1 3 0 1; exit 1",
        "cat; exit 0",
    ] {
        let tool = with_old_sheet().with("lorvisk_sheet", reader);
        judges_nothing(&tool);
        tool.put("sheet", ACCEPTED_SHEET);
        let said = tool.asked(&["sheet", "sheet"]);
        has_no_verdict(&said, "sheet");
        said.complains("lorvisk_sheet");
    }
}

/// What a reader could write other than its line.
const NO_LINES: [&str; 26] = [
    "1 3 0 1",
    "1 3 0 1\n1 3 0 1\n",
    "1 3 0 1\n\n",
    "\n1 3 0 1\n",
    "\n",
    "accepted\n",
    "one 3 0 1\n",
    "1 0 0 0 garbage\n",
    "1 0 0 0garbage\n",
    "1 0 0 0\ngarbage",
    "1 0 0 0\n\0",
    "1 0 0 0\0\n",
    "1 0 0\n",
    "1 0 0 0 0\n",
    "1  0 0 0\n",
    " 1 0 0 0\n",
    "1 0 0 0 \n",
    "1 0 0 0\r\n",
    "1\t0\t0\t0\n",
    "+1 0 0 0\n",
    "-1 0 0 0\n",
    "01 0 0 0\n",
    "0x1 0 0 0\n",
    "65537 0 0 0\n",
    "1.0 0 0 0\n",
    "\u{661} 0 0 0\n",
];

#[test]
fn a_reader_of_sheets_that_writes_something_else_has_said_nothing() {
    for text in NO_LINES {
        let tool = with_old_sheet().with("lorvisk_sheet", &writes(text.as_bytes()));
        judges_nothing(&tool);
        tool.put("sheet", ACCEPTED_SHEET);
        has_no_verdict(&tool.asked(&["sheet", "sheet"]), "sheet");
    }
    let tool = with_old_sheet().with("lorvisk_sheet", ENDLESS);
    judges_nothing(&tool);
}

#[test]
fn a_reader_of_sheets_that_gives_no_answer_of_the_table_has_said_nothing() {
    for numbers in ["0 0 0 0", "12 0 0 0", "13 3 0 1", "65535 0 0 0"] {
        let tool = with_old_sheet().with("lorvisk_sheet", &format!("echo {numbers}"));
        judges_nothing(&tool);
        tool.put("sheet", ACCEPTED_SHEET);
        has_no_verdict(&tool.asked(&["sheet", "sheet"]), "sheet");
    }
}

/// Ways in which a program's file can fail to say how it is started.
#[test]
fn a_program_that_cannot_be_started_has_said_nothing() {
    let tool = with_old_sheet();
    let good = tool.path("good").into_os_string().into_string();
    let good = good.expect("a path in UTF-8");
    for program in ["lorvisk_judge", "lorvisk_sheet"] {
        let right = fs::read(tool.programs().join(program)).expect("its words");
        for words in ["", "\n", "\n\n", "/no/such/program\n", "/\n", &good] {
            tool.start(program, words);
            judges_nothing(&tool);
            let said = tool.asked(&["judge", "good"]);
            said.complains(program).complains("tools/build");
        }
        tool.start(program, right);
    }
    tool.asked(&["judge", "good"]).ends(ACCEPTED);
}

#[test]
fn without_a_program_there_is_no_verdict() {
    for program in ["lorvisk_judge", "lorvisk_sheet"] {
        let tool = with_old_sheet();
        fs::remove_file(tool.programs().join(program)).expect("it was there");
        judges_nothing(&tool);
        fs::create_dir(tool.programs().join(program)).expect("a folder instead");
        judges_nothing(&tool);
        let said = tool.asked(&["judge", "good"]);
        said.complains(program).complains("tools/build");
    }
}

#[test]
fn without_the_folder_of_programs_there_is_no_verdict() {
    let tool = with_old_sheet();
    fs::remove_dir_all(tool.programs()).expect("it was there");
    judges_nothing(&tool);
    fs::write(tool.programs(), "/bin/true").expect("a file instead");
    judges_nothing(&tool);
}

/// Neither a folder where the tool is started nor the way to it names another judge.
#[test]
fn programs_beside_the_tool_are_started_and_no_others() {
    let tool = with_old_sheet();
    tool.put("good", refused_file());
    tool.put_folder("programs");
    let liar = format!("/bin/sh\n-c\n{}\n", accepts());
    for program in PROGRAMS {
        tool.put(format!("programs/{program}"), &liar);
        tool.put(program, &liar);
    }
    let link = tool.path("lorvisk");
    std::os::unix::fs::symlink(tool.tool(), &link).expect("a link to the tool");
    for path in [tool.tool(), link] {
        let mut command = tool.command_at(&path, &["judge", "good"]);
        let status = command.status().expect("the tool").code();
        assert_eq!(status, Some(1));
    }
}

#[test]
fn a_tool_that_is_killed_leaves_no_sheet() {
    let judge = format!("kill -9 $PPID; {}", accepts());
    let reader = "kill -9 $PPID; echo 1 3 0 1";
    for tool in [
        with_old_sheet().with("lorvisk_judge", &judge),
        with_old_sheet().with("lorvisk_sheet", reader),
    ] {
        let said = tool.asked(&["judge", "--sheet", "OUT", "good"]);
        assert_eq!((said.status, said.out.as_str()), (None, ""));
        assert_eq!(tool.names("."), ["good"]);
    }
}

/// A judge that dies at its first start and answers at its second.
#[test]
fn a_judge_that_dies_of_one_file_is_started_anew_for_the_next() {
    let dies_once = format!("mkdir once 2>/dev/null && kill -9 $$; {}", accepts());
    let tool = with_old_sheet().with("lorvisk_judge", &dies_once);
    let said = tool.asked(&["judge", "good", "OUT"]);
    let line = format!("OUT: {ACCEPTED_LINE}");
    said.ends(NO_VERDICT).prints(&["good: no verdict", &line]);
}

#[test]
fn no_verdict_is_the_worst_of_several() {
    let dies_once = format!(
        "mkdir once 2>/dev/null && kill -9 $$; {}",
        writes(&REFUSED_SHEET)
    );
    let tool = with_old_sheet().with("lorvisk_judge", &dies_once);
    let said = tool.asked(&["judge", "gone", "good", "OUT"]);
    let line = format!("OUT: {REFUSED_LINE}");
    let lines = ["gone: no verdict", "good: no verdict", &line];
    said.ends(NO_VERDICT).prints(&lines);
}

/// Whoever sets LD_PRELOAD or the like for the tool has not set it for the judge.
#[test]
fn the_programs_see_nothing_of_the_environment() {
    let line = format!("[ -z \"$SECRET$HOME\" ] && {}", accepts());
    let tool = with_old_sheet().with("lorvisk_judge", &line);
    let mut command = tool.command(&["judge", "good"]);
    let output = command.env("SECRET", "1").env("HOME", "/").output();
    let status = output.expect("the tool").status.code();
    assert_eq!(status, Some(ACCEPTED));
}
