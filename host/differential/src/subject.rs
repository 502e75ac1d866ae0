//! What is compared with the second program: the proved programs, started over pipes and files.

use answer::Numbers;
use programs::{Programs, Silence};
use second::sheet;
use second::Answer;
use std::ffi::OsStr;
use std::fs::{self, File};
use std::path::{Path, PathBuf};
use std::process::Stdio;

/// A trace file with the memories and the load record that are lent to its run.
#[derive(Clone, Debug)]
pub struct Lent {
    pub file: Vec<u8>,
    pub loads: Vec<u8>,
    pub global: Vec<u8>,
    pub shared: Vec<u8>,
}

/// What a run gave: its sheet and, where accepted, what it left.
#[derive(Clone, Debug, PartialEq, Eq)]
pub struct Ran {
    pub sheet: Vec<u8>,
    pub left: Option<Left>,
}

/// The load record and both memories as a run left them.
#[derive(Clone, Debug, PartialEq, Eq)]
pub struct Left {
    pub loads: Vec<u8>,
    pub global: Vec<u8>,
    pub shared: Vec<u8>,
}

/// The services under test. An error tells why there is no answer at all.
pub trait Subject {
    fn judge(&mut self, files: &[Vec<u8>]) -> Result<Vec<Answer>, String>;
    /// The sheet of one file.
    fn judge_to_sheet(&mut self, file: &[u8]) -> Result<Vec<u8>, String>;
    fn run(&mut self, runs: &[Lent]) -> Result<Vec<Ran>, String>;
    fn read_sheet(&mut self, sheet: &[u8]) -> Result<Answer, String>;
}

/// The proved programs, with a folder of its own for the files that they read.
pub struct Proved {
    programs: Programs,
    folder: PathBuf,
}

impl Proved {
    /// The programs that the files in this folder tell how to start.
    pub fn in_folder(programs: &Path) -> Result<Proved, String> {
        let folder = std::env::temp_dir().join(format!("differential-{}", std::process::id()));
        fs::create_dir(&folder).map_err(|error| format!("{}: {error}", folder.display()))?;
        Ok(Proved {
            programs: Programs::in_folder(programs),
            folder,
        })
    }

    fn write(&self, name: &str, bytes: &[u8]) -> Result<PathBuf, String> {
        let path = self.folder.join(name);
        fs::write(&path, bytes).map_err(|error| format!("{}: {error}", path.display()))?;
        Ok(path)
    }

    /// The four files of a run, in the order in which the program takes them.
    fn write_lent(&self, run: usize, lent: &Lent) -> Result<[PathBuf; 4], String> {
        Ok([
            self.write(&format!("{run}-trace"), &lent.file)?,
            self.write(&format!("{run}-global"), &lent.global)?,
            self.write(&format!("{run}-shared"), &lent.shared)?,
            self.write(&format!("{run}-loads"), &lent.loads)?,
        ])
    }
}

impl Drop for Proved {
    fn drop(&mut self) {
        let _ = fs::remove_dir_all(&self.folder);
    }
}

impl Subject for Proved {
    fn judge(&mut self, files: &[Vec<u8>]) -> Result<Vec<Answer>, String> {
        let written = files.iter().enumerate();
        let paths: Result<Vec<PathBuf>, String> = written
            .map(|(number, file)| self.write(&number.to_string(), file))
            .collect();
        let paths = paths?;
        let names: Vec<&OsStr> = paths.iter().map(|path| path.as_os_str()).collect();
        let answers = self.programs.judge_named(&names).map_err(told)?;
        Ok(answers.into_iter().map(answer).collect())
    }

    fn judge_to_sheet(&mut self, file: &[u8]) -> Result<Vec<u8>, String> {
        let path = self.write("input", file)?;
        let input = File::open(&path).map_err(|error| format!("{}: {error}", path.display()))?;
        self.programs
            .judge(input.into())
            .map(|sheet| sheet.to_vec())
            .map_err(told)
    }

    fn run(&mut self, runs: &[Lent]) -> Result<Vec<Ran>, String> {
        let written = runs.iter().enumerate();
        let paths: Result<Vec<[PathBuf; 4]>, String> = written
            .map(|(number, lent)| self.write_lent(number, lent))
            .collect();
        let paths = paths?;
        let fours: Vec<[&Path; 4]> = paths
            .iter()
            .map(|[a, b, c, d]| [a.as_path(), b, c, d])
            .collect();
        let most = runs.iter().map(sheet_and_results).sum();
        let written = self
            .programs
            .run(&fours, Stdio::null(), most)
            .map_err(told)?;
        let ran = taken_apart(&written, runs)?;
        for (four, lent) in fours.iter().zip(runs) {
            unchanged(four, lent)?;
        }
        Ok(ran)
    }

    fn read_sheet(&mut self, sheet: &[u8]) -> Result<Answer, String> {
        self.programs
            .read_sheet_bytes(sheet)
            .map(answer)
            .map_err(told)
    }
}

fn told(silence: Silence) -> String {
    format!("silence: {silence}")
}

fn answer(numbers: Numbers) -> Answer {
    Answer {
        code: numbers.code,
        event: numbers.event,
        partner: numbers.partner,
        peak: numbers.peak,
    }
}

fn sheet_and_results(lent: &Lent) -> usize {
    programs::SHEET_LENGTH + lent.loads.len() + lent.global.len() + lent.shared.len()
}

/// What several runs wrote one after the other. Only a sheet that is an acceptance has results after it.
fn taken_apart(mut written: &[u8], runs: &[Lent]) -> Result<Vec<Ran>, String> {
    let mut ran = Vec::new();
    for lent in runs {
        let sheet = take(&mut written, programs::SHEET_LENGTH)?;
        let left = match sheet::read(&sheet).code {
            1 => Some(Left {
                loads: take(&mut written, lent.loads.len())?,
                global: take(&mut written, lent.global.len())?,
                shared: take(&mut written, lent.shared.len())?,
            }),
            _ => None,
        };
        ran.push(Ran { sheet, left });
    }
    match written {
        [] => Ok(ran),
        _ => Err(format!("{} bytes are left after all runs", written.len())),
    }
}

fn take(written: &mut &[u8], length: usize) -> Result<Vec<u8>, String> {
    let taken = written.get(..length).ok_or("the results stop short")?;
    *written = &written[length..];
    Ok(taken.to_vec())
}

/// The program changes none of its files, whatever the answer.
fn unchanged(four: &[&Path; 4], lent: &Lent) -> Result<(), String> {
    let bytes = [&lent.file, &lent.global, &lent.shared, &lent.loads];
    for (path, bytes) in four.iter().zip(bytes) {
        if fs::read(path).map_err(|error| error.to_string())? != *bytes {
            return Err(format!("{} was changed", path.display()));
        }
    }
    Ok(())
}
