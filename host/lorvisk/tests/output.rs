//! Output that cannot be written, and input that is closed: what nobody hears is not accepted.

mod common;

use common::installed::Installed;
use common::lists::*;
use common::memories::*;
use common::said::{ACCEPTED, NO_VERDICT, REFUSED, UNUSABLE};
use std::fs::OpenOptions;
use std::process::{Command, Stdio};

/// An accepted file by every command.
fn accepting_words() -> Vec<Vec<&'static str>> {
    vec![
        vec!["judge", "t"],
        vec!["judge", "t", "t"],
        vec!["explain", "t"],
        vec!["sheet", "sheet"],
        run_words(&["t"]),
    ]
}

fn with_accepted_files() -> Installed {
    let tool = with_memories();
    tool.put("sheet", ACCEPTED_SHEET);
    tool
}

fn full() -> Stdio {
    let device = OpenOptions::new().write(true).open("/dev/full");
    device.expect("the device that is always full").into()
}

/// A pipe that nobody reads any more.
fn unheard() -> Stdio {
    let mut reader = Command::new("/bin/sh")
        .args(["-c", "exit 0"])
        .stdin(Stdio::piped())
        .spawn()
        .expect("a reader");
    let pipe = reader.stdin.take().expect("its pipe");
    reader.wait().expect("it is gone");
    pipe.into()
}

/// The status of the tool, started by a shell with these redirections.
fn status_with(tool: &Installed, redirected: &str, words: &[&str]) -> Option<i32> {
    let line = format!("exec \"$0\" \"$@\" {redirected}");
    tool.asked_by_shell(&line, words).status
}

#[test]
fn the_commands_accept_where_they_are_heard() {
    let tool = with_accepted_files();
    for words in accepting_words() {
        tool.asked(&words).ends(ACCEPTED);
        assert_eq!(status_with(&tool, "", &words), Some(ACCEPTED));
    }
}

#[test]
fn output_to_a_full_disk_is_not_accepted() {
    let tool = with_accepted_files();
    for words in accepting_words() {
        let output = tool.command(&words).stdout(full()).output();
        let output = output.expect("the tool");
        assert_eq!(output.status.code(), Some(UNUSABLE), "{words:?}");
        let err = String::from_utf8_lossy(&output.stderr).into_owned();
        assert!(err.contains("standard output"), "{words:?}: {err}");
    }
}

#[test]
fn output_to_a_pipe_that_nobody_reads_is_not_accepted() {
    let tool = with_accepted_files();
    for words in accepting_words() {
        let output = tool.command(&words).stdout(unheard()).output();
        let status = output.expect("the tool").status.code();
        assert_eq!(status, Some(UNUSABLE), "{words:?}");
    }
}

/// Rust opens the null device in the place of a closed output before the tool begins, so the two are one to it.
#[test]
fn closed_output_is_the_null_device() {
    let tool = with_accepted_files();
    for words in accepting_words() {
        for redirected in [">/dev/null", ">&-", ">&- 2>&-"] {
            let status = status_with(&tool, redirected, &words);
            assert_eq!(status, Some(ACCEPTED), "{words:?} {redirected}");
        }
    }
}

#[test]
fn refusals_and_silence_that_nobody_hears_are_not_accepted() {
    let tool = with_accepted_files();
    tool.put("bad", refused_file());
    for words in [["judge", "bad"], ["explain", "bad"], ["sheet", "bad"]] {
        for redirected in [">/dev/full", ">&-", ">&- 2>&-", ">/dev/full 2>/dev/full"] {
            let status = status_with(&tool, redirected, &words);
            assert!(matches!(status, Some(1..=3)), "{words:?} {redirected}");
        }
    }
}

#[test]
fn help_that_nobody_hears_ends_with_2_too() {
    let tool = with_accepted_files();
    for words in [vec!["--help"], vec!["--version"], vec!["judge", "--help"]] {
        for redirected in [">/dev/full", ">&-"] {
            assert_eq!(status_with(&tool, redirected, &words), Some(UNUSABLE));
        }
    }
}

#[test]
fn closed_errors_change_no_status() {
    let tool = with_accepted_files();
    tool.put("bad", refused_file());
    for redirected in ["2>&-", "2>/dev/full"] {
        for (words, status) in [
            (["judge", "t"], ACCEPTED),
            (["judge", "bad"], REFUSED),
            (["judge", "gone"], UNUSABLE),
            (["judge", "-x"], UNUSABLE),
            (["sheet", "t"], NO_VERDICT),
        ] {
            assert_eq!(status_with(&tool, redirected, &words), Some(status));
        }
    }
}

#[test]
fn closed_input_is_not_accepted() {
    let tool = with_accepted_files();
    for words in [
        vec!["judge", "-"],
        vec!["judge", "t", "-"],
        vec!["explain", "-"],
        vec!["sheet", "-"],
        run_words(&["-"]),
    ] {
        let status = status_with(&tool, "<&-", &words);
        assert!(matches!(status, Some(1..=3)), "{words:?}");
    }
    assert!(!tool.path("R").exists());
}
