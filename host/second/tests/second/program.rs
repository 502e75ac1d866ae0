//! The program `second` itself, on files in a directory of its own.

use crate::lists::*;
use second::trace::Event;
use std::path::PathBuf;
use std::process::{Command, Output};

fn second(arguments: &[&str]) -> Output {
    let mut command = Command::new(env!("CARGO_BIN_EXE_second"));
    command.args(arguments).output().unwrap()
}

/// Writes a file into the directory that cargo keeps for these tests.
fn written(name: &str, file: &[u8]) -> String {
    let path = PathBuf::from(env!("CARGO_TARGET_TMPDIR")).join(name);
    std::fs::write(&path, file).unwrap();
    path.to_str().unwrap().to_string()
}

fn text(bytes: &[u8]) -> String {
    String::from_utf8(bytes.to_vec()).unwrap()
}

#[test]
fn one_line_for_each_file() {
    let right = written(
        "right.trace",
        &file(16, 16, &[copy(0, 0, 4), Event::WaitAll]),
    );
    let wrong = written("wrong.trace", &[1, 2, 3]);
    let output = second(&[&right, &wrong]);
    let lines = format!("{right} 1 2 0 1\n{wrong} 2 0 0 0\n");
    assert_eq!(text(&output.stdout), lines);
    assert!(output.stderr.is_empty());
    assert_eq!(output.status.code(), Some(1));
    assert_eq!(second(&[&right]).status.code(), Some(0));
}

#[test]
fn a_file_that_cannot_be_read() {
    let output = second(&["/no/such/file"]);
    assert_eq!(text(&output.stdout), "/no/such/file 0 0 0 0\n");
    assert_eq!(text(&output.stderr).lines().count(), 1);
    assert_eq!(output.status.code(), Some(2));
}

#[test]
fn why_adds_the_reason() {
    let wrong = written("why.trace", &file(16, 16, &[bulk_copy(0, 0, 24)]));
    let output = second(&["--why", &wrong]);
    let lines =
        format!("{wrong} 7 0 0 0\n  size is 24; a bulk size is a multiple of 16 and not zero\n");
    assert_eq!(text(&output.stdout), lines);
}

#[test]
fn help_and_no_file() {
    assert_eq!(second(&["--help"]).status.code(), Some(2));
    assert!(text(&second(&["--help"]).stdout).starts_with("usage: second"));
    assert_eq!(second(&[]).status.code(), Some(2));
}
