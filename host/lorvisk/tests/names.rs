//! Files by their names: those that cannot be read, and names that a shell's pattern could hand over.

mod common;

use common::installed::Installed;
use common::lists::*;
use common::said::{Said, ACCEPTED, REFUSED, UNUSABLE};
use std::ffi::OsStr;
use std::os::unix::ffi::OsStrExt;
use std::os::unix::fs::symlink;

const COMMANDS_OF_ONE_FILE: [&str; 3] = ["judge", "explain", "sheet"];

/// Names that lead to nothing that can be read, whoever reads.
fn unreadable(tool: &Installed) -> Vec<String> {
    tool.put("file", ACCEPTED_FILE);
    tool.put_folder("folder");
    symlink("nothing", tool.path("dangling")).expect("a link");
    symlink("loop", tool.path("loop")).expect("a link");
    let long = "n".repeat(256);
    let names = ["gone", "folder", ".", "file/in", "dangling", "loop"];
    names.into_iter().map(String::from).chain([long]).collect()
}

/// One line about the file in the output and one in the errors, which says what to do.
#[track_caller]
fn cannot_be_read(said: &Said, name: &str) {
    said.ends(UNUSABLE)
        .prints(&[&format!("{name}: no verdict")]);
    said.complains(&format!("lorvisk: {name}: "));
    let told = said.err.contains("check its name") || said.err.contains("name the files in it");
    assert!(told && said.err.lines().count() == 1, "{said:#?}");
}

#[test]
fn a_name_without_a_file_that_can_be_read_ends_with_2_by_every_command() {
    let tool = Installed::new();
    for name in unreadable(&tool) {
        for command in COMMANDS_OF_ONE_FILE {
            cannot_be_read(&tool.asked(&[command, &name]), &name);
        }
    }
    tool.has_no_temporary_files();
}

/// As from a shell's variable that is not set.
#[test]
fn an_empty_name_is_no_file_and_is_shown_so_that_it_is_seen() {
    let tool = Installed::new();
    for command in COMMANDS_OF_ONE_FILE {
        let said = tool.asked(&[command, ""]);
        said.ends(UNUSABLE).complains("''");
    }
}

/// Names as they come, and as they are shown.
const ODD_NAMES: [(&[u8], &str); 8] = [
    (b"two words", "two words"),
    (b"a\nb.trace: accepted (1)", "a\\nb.trace: accepted (1)"),
    (b"a\r", "a\\r"),
    (b"\x1b[2K\x1b[1A", "\\u{1b}[2K\\u{1b}[1A"),
    (b"\xff\xfe.trace", "\\xff\\xfe.trace"),
    (b"caf\xc3\xa9", "caf\u{e9}"),
    (b"back\\nslash", "back\\\\nslash"),
    (b"'quoted\"", "'quoted\""),
];

#[test]
fn a_file_of_any_name_is_judged_and_keeps_to_its_line() {
    let tool = Installed::new();
    for (name, shown) in ODD_NAMES {
        let name = OsStr::from_bytes(name);
        tool.put(name, refused_file());
        let line = format!("{shown}: {REFUSED_LINE}");
        let said = tool.asked(&[OsStr::new("judge"), name]);
        said.ends(REFUSED).prints(&[&line]).is_content();
        let said = tool.asked(&[OsStr::new("explain"), name]);
        said.ends(REFUSED).says_line(&line).is_content();
    }
}

#[test]
fn a_missing_file_of_any_name_keeps_to_its_line() {
    let tool = Installed::new();
    for (name, shown) in ODD_NAMES {
        for command in COMMANDS_OF_ONE_FILE {
            let said = tool.asked(&[OsStr::new(command), OsStr::from_bytes(name)]);
            cannot_be_read(&said, shown);
        }
    }
}

#[test]
fn an_odd_word_keeps_to_its_line_where_a_command_or_an_option_is_asked_for() {
    let tool = Installed::new();
    let odd = OsStr::from_bytes(b"--\x1b[2K\n\xff");
    for words in [vec![odd], vec![OsStr::new("judge"), odd]] {
        let said = tool.asked(&words);
        said.ends(UNUSABLE).prints(&[]);
        said.complains("'--\\u{1b}[2K\\n\\xff'");
        assert_eq!(said.err.lines().count(), 1, "{said:#?}");
    }
}

#[test]
fn a_name_with_a_leading_dash_is_given_after_two_dashes_or_by_its_folder() {
    let tool = Installed::new();
    for name in ["-x", "--sheet", "--help", "--sheet=OUT", "--"] {
        tool.put(name, ACCEPTED_FILE);
        let line = format!("{name}: {ACCEPTED_LINE}");
        let said = tool.asked(&["judge", "--", name]);
        said.ends(ACCEPTED).prints(&[&line]);
        let by_folder = format!("./{name}");
        let said = tool.asked(&["judge", &by_folder]);
        said.ends(ACCEPTED).prints(&[&format!("./{line}")]);
        let said = tool.asked(&["explain", "--", name]);
        said.ends(ACCEPTED).says_line(&line);
    }
    let names = ["--", "--help", "--sheet", "--sheet=OUT", "-x"];
    assert_eq!(tool.names("."), names);
}

#[test]
fn a_file_called_dash_is_given_by_its_folder() {
    let tool = Installed::new();
    tool.put("-", ACCEPTED_FILE);
    let said = tool.asked(&["judge", "./-"]);
    said.ends(ACCEPTED)
        .prints(&[&format!("./-: {ACCEPTED_LINE}")]);
    let said = tool.asked(&["judge", "--", "-"]);
    said.ends(REFUSED).says("standard input: refused (2)");
}

#[test]
fn a_name_with_a_leading_dash_is_no_file_otherwise() {
    let tool = Installed::new();
    tool.put("-x", ACCEPTED_FILE);
    tool.put("good", ACCEPTED_FILE);
    for words in [["judge", "-x", "good"], ["judge", "good", "-x"]] {
        let said = tool.asked(&words);
        said.ends(UNUSABLE).prints(&[]);
        said.complains("-x").complains("lorvisk judge --help");
    }
}

/// As `lorvisk judge *` in a folder with such a file.
#[test]
fn a_file_called_help_among_accepted_ones_accepts_nothing() {
    let tool = Installed::new();
    for name in ["--help", "--version", "-h", "-V", "good"] {
        tool.put(name, ACCEPTED_FILE);
    }
    for name in ["--help", "--version", "-h", "-V"] {
        for command in ["judge", "explain", "sheet", "run"] {
            tool.asked(&[command, name, "good"]).ends(UNUSABLE);
            tool.asked(&[command, "good", name]).ends(UNUSABLE);
        }
        tool.asked(&[name, "good"]).ends(UNUSABLE);
    }
}
