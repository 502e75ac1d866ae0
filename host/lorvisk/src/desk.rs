//! The desk where files are handed in: it asks the proved programs and says what they answer.

use crate::arguments::Question;
use crate::explain;
use crate::input::{Input, Kept};
use crate::names::same_file;
use crate::put;
use crate::trouble::{complain, Trouble};
use crate::verdict::{status, Status};
use answer::Answer;
use programs::{Programs, SHEET_LENGTH};
use std::io::Write;
use std::path::Path;

pub struct Desk {
    pub programs: Programs,
}

/// An answer, and the sheet that it was read from.
pub struct Judged {
    pub answer: Answer,
    pub sheet: [u8; SHEET_LENGTH],
}

impl Desk {
    /// The programs are started as the files in a folder beside this tool tell, and no other: whoever could name another
    /// folder could name another judge.
    pub fn beside_this_tool() -> Result<Desk, Trouble> {
        let tool = std::env::current_exe().map_err(|error| {
            Trouble::Unusable(format!("this tool cannot find its own place: {error}"))
        })?;
        Ok(Desk {
            programs: Programs::in_folder(tool.with_file_name("programs")),
        })
    }

    pub fn answer(&self, question: &Question) -> Status {
        match question {
            Question::Judge { files, sheet } => files
                .iter()
                .map(|file| answered(file, self.judge(file, sheet.as_deref())))
                .max()
                .unwrap_or(Status::Unusable),
            Question::Run(run) => answered(&run.trace, self.run(run)),
            Question::Explain { file } => self.explain(file),
            Question::Sheet { file } => answered(file, self.sheet(file)),
        }
    }

    /// A sheet's place is cleared before the file is as much as opened: no older one may be taken for its verdict.
    fn judge(&self, file: &Input, sheet: Option<&Path>) -> Result<Answer, Trouble> {
        clear_sheet(sheet, &[file.path()])?;
        let judged = self.judged(self.programs.judge(file.open()?)?)?;
        put_sheet(sheet, &judged)?;
        Ok(judged.answer)
    }

    fn sheet(&self, file: &Input) -> Result<Answer, Trouble> {
        match Answer::with_numbers(self.programs.read_sheet(file.open()?)?) {
            Answer::NoVerdict => Err(Trouble::Silent("it holds no whole sheet".to_string())),
            answer => Ok(answer),
        }
    }

    /// Judges a file and reads it once more for the words, so that the judge had it as it was handed in.
    fn explain(&self, file: &Input) -> Status {
        let kept = match Kept::of(file) {
            Ok(kept) => kept,
            Err(trouble) => return answered(file, Err(trouble)),
        };
        let answer = match self.judge(&kept.input(), None) {
            Ok(answer) => answer,
            Err(trouble) => return answered(file, Err(trouble)),
        };
        let status = answered(file, Ok(answer));
        match explain::lines(kept.path(), answer.numbers()) {
            Ok(lines) => lines
                .iter()
                .map(|line| say(&format!("  {line}")))
                .fold(status, Ord::max),
            Err(trouble) => trouble.of(&file.shown()).tell().max(status),
        }
    }

    /// The answer on a sheet, as the proved reader reads it.
    pub fn judged(&self, sheet: [u8; SHEET_LENGTH]) -> Result<Judged, Trouble> {
        match Answer::with_numbers(self.programs.read_sheet_bytes(&sheet)?) {
            Answer::NoVerdict if sheet == [0; SHEET_LENGTH] => Err(Trouble::Silent(
                "the judge could not read it to its end".to_string(),
            )),
            Answer::NoVerdict => Err(Trouble::Silent(
                "what the judge wrote is no sheet".to_string(),
            )),
            answer => Ok(Judged { answer, sheet }),
        }
    }
}

/// Says the answer to a file in one line, or that there is none and, on standard error, why.
fn answered(file: &Input, answer: Result<Answer, Trouble>) -> Status {
    let name = file.shown();
    match answer {
        Ok(answer) => say(&format!("{name}: {answer}")).max(status(answer)),
        Err(trouble) => {
            let status = trouble.of(&name).tell();
            say(&format!("{name}: {}", Answer::NoVerdict)).max(status)
        }
    }
}

/// A line on standard output, which has to arrive there.
pub fn say(line: &str) -> Status {
    let mut output = std::io::stdout();
    match writeln!(output, "{line}").and_then(|()| output.flush()) {
        Ok(()) => Status::Accepted,
        Err(error) => {
            complain(&format!("standard output cannot be written: {error}"));
            Status::Unusable
        }
    }
}

pub fn clear_sheet(sheet: Option<&Path>, read: &[&Path]) -> Result<(), Trouble> {
    match sheet {
        None => Ok(()),
        // What begins as a sheet is no trace that could be accepted: it is cleared, whoever names it as one.
        Some(sheet) if !is_sheet(sheet) && read.iter().any(|name| same_file(sheet, name)) => {
            Err(Trouble::Unusable(
                "the sheet would replace a file that is read: give --sheet another name"
                    .to_string(),
            ))
        }
        Some(sheet) => put::clear(sheet),
    }
}

/// Whether a file has the length and the table of a sheet.
fn is_sheet(name: &Path) -> bool {
    let length = std::fs::metadata(name).map_or(0, |found| found.len());
    length == SHEET_LENGTH as u64
        && std::fs::read(name).map_or(false, |bytes| bytes.starts_with(&[4, 0, 8, 0]))
}

pub fn put_sheet(sheet: Option<&Path>, judged: &Judged) -> Result<(), Trouble> {
    match sheet {
        None => Ok(()),
        Some(sheet) => put::put(sheet, &judged.sheet),
    }
}
