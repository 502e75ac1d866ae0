//! A run: the memories and the load record go to `lorvisk_run`, and what it leaves comes back as files.

use crate::arguments::Run;
use crate::desk::{clear_sheet, put_sheet, Desk, Judged};
use crate::input::{cannot_be_read, open, Kept};
use crate::names::{is_in, same_file, shown};
use crate::put;
use crate::trouble::Trouble;
use answer::Answer;
use programs::SHEET_LENGTH;
use std::path::Path;
use std::process::Stdio;

/// The longest load record that `lorvisk_run` takes.
const RECORD_ROOM: usize = 65_536;

/// The files that a run leaves, in the order in which `lorvisk_run` writes them.
const RESULTS: [&str; 3] = ["loads", "global", "shared"];

/// Bytes of those files, by their names.
type Results<'a> = Vec<(&'static str, &'a [u8])>;

impl Desk {
    pub fn run(&self, run: &Run) -> Result<Answer, Trouble> {
        clear(run)?;
        let lengths = lengths(run)?;
        let most = lengths
            .iter()
            .fold(SHEET_LENGTH, |most, length| most.saturating_add(*length));
        let trace = Kept::of(&run.trace)?;
        let four = [trace.path(), &run.global, &run.shared, &run.loads];
        // A memory may be `/dev/stdin`: the program's standard input is ours.
        let written = self.programs.run(&[four], Stdio::inherit(), most)?;
        let (judged, results) = self.ran(&written, lengths)?;
        if !results.is_empty() {
            put::put_folder(&run.results, &results)?;
        }
        // The sheet comes last, and where it cannot be put no results stay either.
        if let Err(trouble) = put_sheet(run.sheet.as_deref(), &judged) {
            put::clear_folder(&run.results, &RESULTS)?;
            return Err(trouble);
        }
        Ok(judged.answer)
    }

    /// What a run wrote, taken apart: the answer, and the results, which come whole with an acceptance and not at all with a
    /// refusal.
    fn ran<'a>(
        &self,
        written: &'a [u8],
        lengths: [usize; 3],
    ) -> Result<(Judged, Results<'a>), Trouble> {
        let unfinished = || Trouble::Silent("lorvisk_run did not finish its answer".to_string());
        let (sheet, mut rest) = first(written, SHEET_LENGTH).ok_or_else(unfinished)?;
        let judged = self.judged(sheet.try_into().map_err(|_| unfinished())?)?;
        let mut results = Vec::new();
        if judged.answer.is_accepted() {
            for (name, length) in RESULTS.into_iter().zip(lengths) {
                let (result, after) = first(rest, length).ok_or_else(unfinished)?;
                results.push((name, result));
                rest = after;
            }
        }
        match rest {
            [] => Ok((judged, results)),
            _ => Err(unfinished()),
        }
    }
}

/// The first bytes, and those after them.
fn first(bytes: &[u8], length: usize) -> Option<(&[u8], &[u8])> {
    Some((bytes.get(..length)?, bytes.get(length..)?))
}

/// The lengths of what the run leaves, in the order of `RESULTS`.
fn lengths(run: &Run) -> Result<[usize; 3], Trouble> {
    let room = length(&run.loads)?;
    if room > RECORD_ROOM {
        let loads = shown(run.loads.as_os_str());
        return Err(Trouble::Unusable(format!(
            "{loads}: a load record has at most {RECORD_ROOM} bytes, and this file has {room}: take a shorter one"
        )));
    }
    Ok([room, length(&run.global)?, length(&run.shared)?])
}

/// The length of a file of a run. What has no length of its own, as a pipe, cannot be handed back at its length.
fn length(name: &Path) -> Result<usize, Trouble> {
    let found = open(name).and_then(|file| file.metadata().map_err(cannot_be_read));
    let found = found.map_err(|trouble| trouble.of(&shown(name.as_os_str())))?;
    match usize::try_from(found.len()) {
        Ok(length) if found.is_file() => Ok(length),
        _ => Err(Trouble::Unusable(format!(
            "{}: a memory or load record is an ordinary file",
            shown(name.as_os_str())
        ))),
    }
}

/// Clears the places of the sheet and of the results: no older ones may be taken for those of this run.
fn clear(run: &Run) -> Result<(), Trouble> {
    let read = [run.trace.path(), &run.loads, &run.global, &run.shared];
    let sheet = run.sheet.as_deref();
    if sheet.map_or(false, |sheet| is_in(sheet, &run.results)) {
        return Err(Trouble::Unusable(
            "the sheet would stand among the results: give --sheet another name".to_string(),
        ));
    }
    // Both are tried, so that one outlasts no trouble of the other.
    let cleared = [
        clear_sheet(sheet, &read),
        clear_results(&run.results, &read),
    ];
    cleared.into_iter().collect()
}

fn clear_results(results: &Path, read: &[&Path]) -> Result<(), Trouble> {
    let replaced = |name: &&str| read.iter().any(|read| same_file(&results.join(name), read));
    match RESULTS.iter().any(replaced) {
        true => Err(Trouble::Unusable(
            "the results would replace a file that is read: give --results another folder"
                .to_string(),
        )),
        false => put::clear_folder(results, &RESULTS),
    }
}
