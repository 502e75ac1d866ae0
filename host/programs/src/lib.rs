//! Starts the proved programs and takes what they write, over pipes. A program that cannot be started, dies, or writes
//! anything but what was asked of it has said nothing: that is an error here (`Silence`), never an answer.

mod lent;
mod numbers;
mod program;

pub use program::Silence;

use answer::Numbers;
use lent::Lent;
use numbers::{line_of_numbers, named_line};
use program::Program;
use std::ffi::OsStr;
use std::os::unix::ffi::OsStrExt;
use std::path::{Path, PathBuf};
use std::process::Stdio;

/// The length of a verdict sheet.
pub const SHEET_LENGTH: usize = 12;

/// Room for a line of four numbers.
const LINE_ROOM: usize = 64;

/// The proved programs, by the folder that says how each is started.
pub struct Programs {
    folder: PathBuf,
}

impl Programs {
    pub fn in_folder(folder: impl Into<PathBuf>) -> Programs {
        Programs {
            folder: folder.into(),
        }
    }

    /// The verdict sheet of a trace file, which is read to its end.
    pub fn judge(&self, trace: Stdio) -> Result<[u8; SHEET_LENGTH], Silence> {
        let judge = self.program("lorvisk_judge")?;
        let written = judge.written(&[], trace, b"", SHEET_LENGTH)?;
        let length = written.len();
        written.try_into().map_err(|_| judge.wrote_less(length))
    }

    /// The answers of the files of these names, in one start. A name in UTF-8 with a newline has none.
    pub fn judge_named(&self, names: &[&OsStr]) -> Result<Vec<Numbers>, Silence> {
        let judge = self.program("lorvisk_judge")?;
        let lent: Vec<Lent> = names.iter().map(|name| Lent::of(name)).collect();
        let names: Vec<&OsStr> = lent.iter().map(Lent::name).collect();
        let most = names.iter().map(|name| name.len() + LINE_ROOM).sum();
        let written = judge.written(&names, Stdio::null(), b"", most)?;
        let mut rest = written.as_slice();
        let mut answers = Vec::new();
        for name in names {
            let line = named_line(rest, name.as_bytes());
            let (numbers, after) = line.ok_or_else(|| judge.no_line())?;
            answers.push(numbers);
            rest = after;
        }
        match rest {
            [] => Ok(answers),
            _ => Err(judge.no_line()),
        }
    }

    /// What the runs of these fours of files write, one after the other: a sheet and, where it is an acceptance, the load
    /// record, the global and the shared memory. That is `most` bytes at most.
    pub fn run(&self, fours: &[[&Path; 4]], input: Stdio, most: usize) -> Result<Vec<u8>, Silence> {
        let lent: Vec<Lent> = fours
            .iter()
            .flatten()
            .map(|name| Lent::of(name.as_os_str()))
            .collect();
        let names: Vec<&OsStr> = lent.iter().map(Lent::name).collect();
        self.program("lorvisk_run")?
            .written(&names, input, b"", most)
    }

    /// The answer that a file holds as its sheet.
    pub fn read_sheet(&self, sheet: Stdio) -> Result<Numbers, Silence> {
        self.read_sheet_and(sheet, b"")
    }

    /// The answer that these bytes hold as a sheet.
    pub fn read_sheet_bytes(&self, sheet: &[u8]) -> Result<Numbers, Silence> {
        self.read_sheet_and(Stdio::piped(), sheet)
    }

    fn read_sheet_and(&self, input: Stdio, piped: &[u8]) -> Result<Numbers, Silence> {
        let reader = self.program("lorvisk_sheet")?;
        let line = reader.written(&[], input, piped, LINE_ROOM)?;
        line_of_numbers(&line).ok_or_else(|| reader.no_line())
    }

    fn program(&self, name: &'static str) -> Result<Program, Silence> {
        Program::in_folder(&self.folder, name)
    }
}
