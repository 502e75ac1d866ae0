//! Help, version and wrong command lines: status 2, for 0 is acceptance alone.

mod common;

use common::installed::Installed;
use common::lists::*;
use common::said::{Said, UNUSABLE};

const COMMANDS: [&str; 4] = ["judge", "run", "explain", "sheet"];

/// Nothing in the output, one line in the errors, and a hint in it.
#[track_caller]
fn is_wrong(said: &Said, words: &str, hint: &str) {
    said.ends(UNUSABLE).prints(&[]).complains(words);
    assert!(said.err.starts_with("lorvisk: "), "{said:#?}");
    assert!(said.err.ends_with(&format!("try '{hint}'\n")), "{said:#?}");
    assert_eq!(said.err.lines().count(), 1, "{said:#?}");
}

/// Text in the output that fits a terminal, and nothing in the errors.
#[track_caller]
fn is_help(said: &Said) {
    said.ends(UNUSABLE).is_content().says("Usage:");
    said.says("Exit status");
    assert!(said.out.lines().all(|line| line.len() <= 80), "{said:#?}");
    assert!(said.out.is_ascii() && !said.out.contains('\t'), "{said:#?}");
}

#[test]
fn the_help_names_every_command_and_every_status() {
    let tool = Installed::without_programs();
    for word in ["--help", "-h", "help"] {
        let said = tool.asked(&[word]);
        is_help(&said);
        for command in COMMANDS {
            said.says(&format!("lorvisk {command} "));
        }
        for status in ["0  accepted", "1  refused", "2  ", "3  no verdict"] {
            said.says(&format!("\n  {status}"));
        }
        said.says("--version").says("'-' is standard input");
    }
}

#[test]
fn each_command_has_its_help_with_its_options() {
    let tool = Installed::without_programs();
    let all = ["--global", "--shared", "--loads", "--results", "--sheet"];
    let options: [&[&str]; 4] = [&all[4..], &all, &[], &[]];
    for (command, options) in COMMANDS.into_iter().zip(options) {
        for word in ["--help", "-h"] {
            let said = tool.asked(&[command, word]);
            is_help(&said);
            said.says(&format!("lorvisk {command} "));
            for option in all {
                let named = said.out.contains(option);
                assert_eq!(named, options.contains(&option), "{option} in {said:#?}");
            }
        }
    }
}

#[test]
fn help_is_given_wherever_it_is_asked_for_and_nothing_is_done() {
    let tool = Installed::new();
    tool.put("a", ACCEPTED_FILE);
    tool.put("OUT", "old");
    is_help(&tool.asked(&["judge", "--sheet", "OUT", "a", "--help"]));
    is_help(&tool.asked(&["judge", "-h", "a"]));
    is_help(&tool.asked(&["explain", "a", "--help"]));
    is_help(&tool.asked(&["sheet", "--help", "OUT"]));
    is_help(&tool.asked(&["run", "--global", "a", "--help"]));
    assert_eq!(tool.bytes("OUT").unwrap(), b"old");
}

#[test]
fn the_version_is_one_line() {
    let tool = Installed::without_programs();
    let version = concat!("lorvisk ", env!("CARGO_PKG_VERSION"));
    for word in ["--version", "-V"] {
        let said = tool.asked(&[word]);
        said.ends(UNUSABLE).prints(&[version]).is_content();
    }
}

#[test]
fn without_a_command_there_is_a_hint() {
    let tool = Installed::new();
    is_wrong(&tool.asked::<&str>(&[]), "command", "lorvisk --help");
}

#[test]
fn an_unknown_command_is_named() {
    let tool = Installed::new();
    tool.put("a", ACCEPTED_FILE);
    for word in [
        "a", "Judge", "judge ", "judges", "", "--", "-", "-x", "--judge", "--sheet",
    ] {
        let said = tool.asked(&[word, "a"]);
        is_wrong(&said, &format!("'{word}'"), "lorvisk --help");
    }
}

#[test]
fn a_command_without_a_file_says_so() {
    let tool = Installed::new();
    for command in ["judge", "explain", "sheet"] {
        let hint = format!("lorvisk {command} --help");
        is_wrong(&tool.asked(&[command]), "no file", &hint);
        is_wrong(&tool.asked(&[command, "--"]), "no file", &hint);
    }
    let said = tool.asked(&["run"]);
    is_wrong(&said, "--global", "lorvisk run --help");
}

#[test]
fn an_unknown_option_is_named() {
    let tool = Installed::new();
    tool.put("a", ACCEPTED_FILE);
    for command in COMMANDS {
        let hint = format!("lorvisk {command} --help");
        for option in [
            "-x", "--x", "--Sheet", "--sheets", "--help=a", "-hh", "---", "--=a",
        ] {
            let said = tool.asked(&[command, option, "a"]);
            is_wrong(&said, &format!("'{option}'"), &hint);
            let said = tool.asked(&[command, "a", option]);
            is_wrong(&said, &format!("'{option}'"), &hint);
        }
    }
}

#[test]
fn an_option_of_another_command_is_unknown() {
    let tool = Installed::new();
    for (command, option) in [
        ("judge", "--global"),
        ("judge", "--results"),
        ("explain", "--sheet"),
        ("sheet", "--sheet"),
    ] {
        let hint = format!("lorvisk {command} --help");
        is_wrong(&tool.asked(&[command, option, "a", "a"]), option, &hint);
    }
}

#[test]
fn standard_input_is_given_once() {
    let tool = Installed::new();
    let hint = "lorvisk judge --help";
    for words in [vec!["judge", "-", "-"], vec!["judge", "-", "a", "--", "-"]] {
        is_wrong(&tool.asked(&words), "'-' is given twice", hint);
    }
}
