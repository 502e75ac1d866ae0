//! The command line tool. It starts the proved programs and says what they answer; it never judges by itself. Its exit
//! status is 0 only for an acceptance: whatever it does not know to be one ends with another status.

mod arguments;
mod desk;
mod explain;
mod help;
mod input;
mod names;
mod put;
mod remedy;
mod run;
mod trouble;
mod verdict;

use arguments::Request;
use desk::Desk;
use std::process::ExitCode;
use trouble::complain;
use verdict::Status;

fn main() -> ExitCode {
    let status = match arguments::parse(std::env::args_os().skip(1)) {
        Ok(Request::Help(topic)) => told(help::text(topic)),
        Ok(Request::Version) => told(help::VERSION),
        Ok(Request::Ask(question)) => match Desk::beside_this_tool() {
            Ok(desk) => desk.answer(&question),
            Err(trouble) => trouble.tell(),
        },
        Err(usage) => {
            complain(&usage);
            Status::Unusable
        }
    };
    ExitCode::from(status as u8)
}

/// Help accepts nothing, so its status is not 0 either: among the files that a shell names may be one called `--help`.
fn told(text: &str) -> Status {
    desk::say(text).max(Status::Unusable)
}
