//! The program `second`: judges trace files and prints one line for each.

use second::answer::{code, Answer, Refusal};
use second::judge::judge_in_words;
use std::ffi::OsString;
use std::io::{self, Write};
use std::path::Path;
use std::process::ExitCode;

const HELP: &str = "\
usage: second [--why] FILE..

Judges each trace file and prints one line for it: NAME code event partner peak.
  --why   adds a line with the reason
  --help  prints this text
A file that cannot be read gets a line on stderr and the line NAME 0 0 0 0.
Exit status: 0 all files are accepted, 1 some are refused, 2 some are not judged.
";

/// Exit statuses; of several files the largest counts. Only an acceptance is 0.
const ACCEPTED: u8 = 0;
const REFUSED: u8 = 1;
const NOT_JUDGED: u8 = 2;

fn main() -> ExitCode {
    let arguments: Vec<OsString> = std::env::args_os().skip(1).collect();
    // A reader that hangs up ends the program; there is nobody left to tell.
    obey(&arguments).unwrap_or_else(|_| ExitCode::from(NOT_JUDGED))
}

fn obey(arguments: &[OsString]) -> io::Result<ExitCode> {
    if arguments.iter().any(|argument| argument == "--help") {
        io::stdout().write_all(HELP.as_bytes())?;
        return Ok(ExitCode::from(NOT_JUDGED));
    }
    let (why, files): (Vec<&OsString>, Vec<&OsString>) =
        arguments.iter().partition(|argument| *argument == "--why");
    if files.is_empty() {
        io::stderr().write_all(HELP.as_bytes())?;
        return Ok(ExitCode::from(NOT_JUDGED));
    }
    let mut status = ACCEPTED;
    for file in files {
        status = status.max(judge_file(Path::new(file), !why.is_empty())?);
    }
    Ok(ExitCode::from(status))
}

/// Prints the lines of one file and gives its exit status.
fn judge_file(name: &Path, why: bool) -> io::Result<u8> {
    let file = match std::fs::read(name) {
        Ok(file) => file,
        Err(error) => {
            writeln!(io::stderr(), "{}: {error}", name.display())?;
            writeln!(io::stdout(), "{} {}", name.display(), Answer::NO_VERDICT)?;
            return Ok(NOT_JUDGED);
        }
    };
    let (answer, reason) = match judge_in_words(&file) {
        Ok(answer) => (answer, accepted_in_words(answer)),
        Err(Refusal { answer, reason }) => (answer, reason),
    };
    writeln!(io::stdout(), "{} {answer}", name.display())?;
    if why {
        writeln!(io::stdout(), "  {reason}")?;
    }
    Ok(if answer.code == code::ACCEPTED {
        ACCEPTED
    } else {
        REFUSED
    })
}

fn accepted_in_words(answer: Answer) -> String {
    let Answer { event, peak, .. } = answer;
    format!("accepted: number of events {event}, most operations open at once {peak}")
}
