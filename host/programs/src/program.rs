//! One proved program: how it is started, and the ways in which it can fall silent.

use std::ffi::{OsStr, OsString};
use std::fmt;
use std::io::{self, Read, Write};
use std::os::unix::ffi::OsStringExt;
use std::path::{Path, PathBuf};
use std::process::{Child, Command, ExitStatus, Stdio};

/// A program and the words of the command that starts it on this processor.
pub(crate) struct Program {
    name: &'static str,
    start: OsString,
    words: Vec<OsString>,
}

/// Why a program gave no answer.
#[derive(Debug)]
pub enum Silence {
    /// The file that says how the program is started cannot be read.
    NotInstalled { file: PathBuf, error: io::Error },
    /// Its command cannot be started, or the pipe to it broke.
    NotStarted {
        name: &'static str,
        error: io::Error,
    },
    /// It was killed, or ended with a status of failure.
    Died {
        name: &'static str,
        status: ExitStatus,
    },
    /// It wrote this many bytes, and they are not a whole answer.
    WroteLess { name: &'static str, length: usize },
    /// It wrote more than any answer has.
    WroteMore { name: &'static str, most: usize },
    /// What it wrote is not the line that was asked for.
    NoLine { name: &'static str },
}

impl fmt::Display for Silence {
    fn fmt(&self, to: &mut fmt::Formatter<'_>) -> fmt::Result {
        match self {
            Silence::NotInstalled { file, error } => write!(
                to,
                "{}: {error}: build the tool anew with tools/build",
                file.display()
            ),
            Silence::NotStarted { name, error } => write!(
                to,
                "{name} could not be started: {error}: build the tool anew with tools/build"
            ),
            Silence::Died { name, status } => write!(to, "{name} died: {status}"),
            Silence::WroteLess { name, length } => {
                write!(to, "{name} wrote {length} bytes, which is no whole answer")
            }
            Silence::WroteMore { name, most } => {
                write!(to, "{name} wrote more than the {most} bytes of an answer")
            }
            Silence::NoLine { name } => write!(to, "{name} did not write its line"),
        }
    }
}

impl std::error::Error for Silence {}

impl Program {
    /// The program that a file of its name in this folder tells how to start: a word to a line, as `tools/command`
    /// prints them.
    pub(crate) fn in_folder(folder: &Path, name: &'static str) -> Result<Program, Silence> {
        let file = folder.join(name);
        let not_installed = |error| Silence::NotInstalled {
            file: file.clone(),
            error,
        };
        let text = std::fs::read(&file).map_err(not_installed)?;
        let mut words = text
            .split(|byte| *byte == b'\n')
            .filter(|word| !word.is_empty())
            .map(|word| OsString::from_vec(word.to_vec()));
        match words.next() {
            Some(start) => Ok(Program {
                name,
                start,
                words: words.collect(),
            }),
            None => Err(not_installed(io::Error::new(
                io::ErrorKind::InvalidData,
                "it is empty",
            ))),
        }
    }

    /// What the program writes when it is started with these arguments and this input, into which `piped` is written if it
    /// is a pipe. It has to end by itself, without a fault and after `most` bytes at most. Its standard error is ours.
    pub(crate) fn written(
        &self,
        arguments: &[&OsStr],
        input: Stdio,
        piped: &[u8],
        most: usize,
    ) -> Result<Vec<u8>, Silence> {
        let name = self.name;
        let mut child = Command::new(&self.start)
            .args(&self.words)
            .args(arguments)
            // What a caller has put into the environment, LD_PRELOAD say, is not for the judge.
            .env_clear()
            .stdin(input)
            .stdout(Stdio::piped())
            .spawn()
            .map_err(|error| Silence::NotStarted { name, error })?;
        let said = exchange(&mut child, piped, most);
        if !matches!(&said, Ok(bytes) if bytes.len() <= most) {
            // It may be gone already; `wait` tells how it ended either way.
            let _ = child.kill();
        }
        let status = child
            .wait()
            .map_err(|error| Silence::NotStarted { name, error })?;
        let bytes = said.map_err(|error| Silence::NotStarted { name, error })?;
        if bytes.len() > most {
            return Err(Silence::WroteMore { name, most });
        }
        match status.success() {
            true => Ok(bytes),
            false => Err(Silence::Died { name, status }),
        }
    }

    pub(crate) fn wrote_less(&self, length: usize) -> Silence {
        Silence::WroteLess {
            name: self.name,
            length,
        }
    }

    pub(crate) fn no_line(&self) -> Silence {
        Silence::NoLine { name: self.name }
    }
}

/// Hands the program its input, if that is a pipe, and takes what it writes, but never much more than `most` bytes.
fn exchange(child: &mut Child, piped: &[u8], most: usize) -> io::Result<Vec<u8>> {
    if let Some(mut input) = child.stdin.take() {
        // A program that has gone without reading shows by what it wrote.
        let _ = input.write_all(piped);
    }
    let mut bytes = Vec::new();
    if let Some(output) = child.stdout.take() {
        output.take(most as u64 + 1).read_to_end(&mut bytes)?;
    }
    Ok(bytes)
}
