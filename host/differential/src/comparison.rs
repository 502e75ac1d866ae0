//! The comparison of answers, runs and sheets with those of the second program, and what is told of a difference.

use crate::random::Random;
use crate::smallest::smallest;
use crate::subject::{Left, Lent, Ran, Subject};
use second::{sheet, Answer};
use std::collections::BTreeMap;
use std::fmt;

/// Files that are judged in one start of the program.
const TOGETHER: usize = 500;

/// Runs in one start.
const RUNS_TOGETHER: usize = 100;

/// Files from this length on, and one in so many of the others, are judged on standard input too.
const LONG: usize = 1_500;
const ONE_IN: u64 = 50;

/// What another way of judging gives a file; none where it gives nothing.
pub type Expected<'a> = &'a dyn Fn(&[u8]) -> Option<Answer>;

/// A file on which the two sides differ, with what each gave.
#[derive(Debug)]
pub struct Difference {
    pub shows: String,
    pub files: Vec<(&'static str, Vec<u8>)>,
    pub proved: String,
    pub expected: String,
}

impl fmt::Display for Difference {
    fn fmt(&self, to: &mut fmt::Formatter<'_>) -> fmt::Result {
        writeln!(to, "DIFFERENCE: {}", self.shows)?;
        for (name, bytes) in &self.files {
            writeln!(to, "  {name}, {} bytes: {}", bytes.len(), hex(bytes))?;
        }
        writeln!(to, "  proved:   {}", self.proved)?;
        write!(to, "  expected: {}", self.expected)
    }
}

pub fn hex(bytes: &[u8]) -> String {
    bytes.iter().map(|byte| format!("{byte:02x}")).collect()
}

/// What was compared so far.
#[derive(Default)]
pub struct Counts {
    /// Files judged, by the code of their answer.
    pub judged: BTreeMap<u16, u64>,
    /// Runs, by the code of their answer.
    pub ran: BTreeMap<u16, u64>,
    pub sheets: u64,
}

impl Counts {
    pub fn judged(&self) -> u64 {
        self.judged.values().sum()
    }

    pub fn ran(&self) -> u64 {
        self.ran.values().sum()
    }

    pub fn add(&mut self, more: &Counts) {
        for (sum, more) in [(&mut self.judged, &more.judged), (&mut self.ran, &more.ran)] {
            for (code, count) in more {
                *sum.entry(*code).or_default() += count;
            }
        }
        self.sheets += more.sheets;
    }
}

pub struct Comparison<'a> {
    pub subject: &'a mut dyn Subject,
    pub random: Random,
    /// How many times the usual number of files.
    pub times: u64,
    pub counts: Counts,
}

impl<'a> Comparison<'a> {
    pub fn new(subject: &'a mut dyn Subject, seed: u64, times: u64) -> Comparison<'a> {
        Comparison {
            subject,
            random: Random::new(seed),
            times,
            counts: Counts::default(),
        }
    }

    /// Each file gets the answer that the second program gives it.
    pub fn judge(&mut self, files: &[Vec<u8>]) -> Result<(), Difference> {
        self.judge_as(files, &|file| Some(second::judge(file)))
    }

    /// Each file gets the answer that is expected, where one is.
    pub fn judge_as(
        &mut self,
        files: &[Vec<u8>],
        expected: Expected<'_>,
    ) -> Result<(), Difference> {
        for together in files.chunks(TOGETHER) {
            let answers = self.subject.judge(together);
            for (at, file) in together.iter().enumerate() {
                // A program that died over many files is asked for each alone, to find the one.
                let given = match &answers {
                    Ok(answers) => Ok(answers[at]),
                    Err(_) => self
                        .subject
                        .judge(std::slice::from_ref(file))
                        .map(|answers| answers[0]),
                };
                if let Some(wanted) = expected(file) {
                    if given != Ok(wanted) {
                        return Err(self.difference(file, expected));
                    }
                    self.judge_on_input(file, wanted)?;
                    *self.counts.judged.entry(wanted.code).or_default() += 1;
                }
            }
            answers.map_err(died_over_many)?;
        }
        Ok(())
    }

    /// Long files, and some of the others, are judged on standard input too, as the tool does: the sheet is the answer's.
    fn judge_on_input(&mut self, file: &[u8], wanted: Answer) -> Result<(), Difference> {
        if file.len() < LONG && self.counts.judged() % ONE_IN != 0 {
            return Ok(());
        }
        self.counts.sheets += 1;
        let mut sheet = vec![0; programs::SHEET_LENGTH];
        sheet::write(wanted, &mut sheet);
        match self.subject.judge_to_sheet(file) {
            Ok(given) if given == sheet => Ok(()),
            other => Err(Difference {
                shows: "the sheet of a file on standard input".to_string(),
                files: vec![("file", file.to_vec())],
                proved: other.map_or_else(|silence| silence, |sheet| hex(&sheet)),
                expected: hex(&sheet),
            }),
        }
    }

    fn difference(&mut self, file: &[u8], expected: Expected<'_>) -> Difference {
        let subject = &mut *self.subject;
        let mut given = |file: &[u8]| match subject.judge(&[file.to_vec()]) {
            Ok(answers) => answers
                .first()
                .map_or("nothing".to_string(), Answer::to_string),
            Err(silence) => silence,
        };
        let mut differs =
            |file: &[u8]| expected(file).map_or(false, |wanted| wanted.to_string() != given(file));
        let small = smallest(file, &mut differs);
        Difference {
            shows: format!("a file's answer (cut down from {} bytes)", file.len()),
            proved: given(&small),
            expected: expected(&small).map_or("nothing".to_string(), |answer| answer.to_string()),
            files: vec![("file", small)],
        }
    }

    /// Each run gives the sheet that the second program gives, and leaves what its run leaves.
    pub fn run(&mut self, runs: &[Lent]) -> Result<Vec<Ran>, Difference> {
        let mut all = Vec::new();
        for together in runs.chunks(RUNS_TOGETHER) {
            let ran = self.subject.run(together);
            for (at, lent) in together.iter().enumerate() {
                let wanted = expected_run(lent);
                let given = match &ran {
                    Ok(ran) => Ok(ran[at].clone()),
                    Err(_) => self
                        .subject
                        .run(std::slice::from_ref(lent))
                        .map(|mut ran| ran.remove(0)),
                };
                match given {
                    Ok(given) if given == wanted => {
                        *self
                            .counts
                            .ran
                            .entry(sheet::read(&wanted.sheet).code)
                            .or_default() += 1;
                        all.push(wanted);
                    }
                    _ => return Err(self.different_run(lent)),
                }
            }
            ran.map_err(died_over_many)?;
        }
        Ok(all)
    }

    fn different_run(&mut self, lent: &Lent) -> Difference {
        let subject = &mut *self.subject;
        let mut given = |file: &[u8]| {
            let lent = Lent {
                file: file.to_vec(),
                ..lent.clone()
            };
            let ran = subject.run(std::slice::from_ref(&lent));
            let same = matches!(&ran, Ok(ran) if ran[..] == [expected_run(&lent)]);
            (
                same,
                ran.map_or_else(|silence| silence, |ran| ran.iter().map(told).collect()),
            )
        };
        let small = smallest(&lent.file, &mut |file| !given(file).0);
        let (_, proved) = given(&small);
        let cut = Lent {
            file: small,
            ..lent.clone()
        };
        Difference {
            shows: format!("a run (its file cut down from {} bytes)", lent.file.len()),
            proved,
            expected: told(&expected_run(&cut)),
            files: vec![
                ("file", cut.file),
                ("load record", cut.loads),
                ("global memory", cut.global),
                ("shared memory", cut.shared),
            ],
        }
    }

    /// These bytes read, as a sheet, as the second program reads them.
    pub fn read_sheet(&mut self, bytes: &[u8]) -> Result<Answer, Difference> {
        let wanted = sheet::read(bytes);
        self.counts.sheets += 1;
        match self.subject.read_sheet(bytes) {
            Ok(given) if given == wanted => Ok(wanted),
            other => Err(Difference {
                shows: "a sheet's answer".to_string(),
                files: vec![("sheet", bytes.to_vec())],
                proved: other.map_or_else(|silence| silence, |answer| answer.to_string()),
                expected: wanted.to_string(),
            }),
        }
    }
}

/// A program that has an answer for each file alone, and none for all of them together.
fn died_over_many(silence: String) -> Difference {
    Difference {
        shows: "many files in one start".to_string(),
        files: Vec::new(),
        proved: silence,
        expected: "an answer for each".to_string(),
    }
}

fn told(ran: &Ran) -> String {
    let sheet = hex(&ran.sheet);
    match &ran.left {
        None => format!("sheet {sheet}, and nothing changed"),
        Some(Left {
            loads,
            global,
            shared,
        }) => {
            let (loads, global, shared) = (hex(loads), hex(global), hex(shared));
            format!("sheet {sheet}, load record {loads}, global {global}, shared {shared}")
        }
    }
}

/// The second program's run. If it refused and yet changed something, that is in `left` and shows as a difference.
fn expected_run(lent: &Lent) -> Ran {
    let before = Left {
        loads: lent.loads.clone(),
        global: lent.global.clone(),
        shared: lent.shared.clone(),
    };
    let mut left = before.clone();
    let answer = second::run(
        &lent.file,
        &mut left.global,
        &mut left.shared,
        &mut left.loads,
    );
    let mut sheet = vec![0; programs::SHEET_LENGTH];
    sheet::write(answer, &mut sheet);
    Ran {
        sheet,
        left: Some(left).filter(|left| answer.code == 1 || *left != before),
    }
}
