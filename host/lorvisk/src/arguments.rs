//! The command line, taken apart.

use crate::help::Topic;
use crate::input::Input;
use crate::names::shown;
use std::collections::VecDeque;
use std::ffi::OsString;
use std::os::unix::ffi::{OsStrExt, OsStringExt};
use std::path::PathBuf;

pub enum Request {
    Help(Topic),
    Version,
    Ask(Question),
}

pub enum Question {
    Judge {
        files: Vec<Input>,
        sheet: Option<PathBuf>,
    },
    Run(Run),
    Explain {
        file: Input,
    },
    Sheet {
        file: Input,
    },
}

/// The files of a run.
pub struct Run {
    pub trace: Input,
    pub global: PathBuf,
    pub shared: PathBuf,
    pub loads: PathBuf,
    pub results: PathBuf,
    pub sheet: Option<PathBuf>,
}

/// What the words ask for, or what is wrong with them.
pub fn parse(words: impl Iterator<Item = OsString>) -> Result<Request, String> {
    let mut words: VecDeque<OsString> = words.collect();
    let first = words
        .pop_front()
        .ok_or("no command is given: try 'lorvisk --help'")?;
    let topic = match first.as_bytes() {
        b"judge" => Topic::Judge,
        b"run" => Topic::Run,
        b"explain" => Topic::Explain,
        b"sheet" => Topic::Sheet,
        b"-h" | b"--help" | b"help" => return Ok(Request::Help(Topic::Lorvisk)),
        b"-V" | b"--version" => return Ok(Request::Version),
        _ => {
            let first = shown(&first);
            return Err(format!(
                "there is no command '{first}': try 'lorvisk --help'"
            ));
        }
    };
    let asked = Asked::in_words(words, topic)?;
    if asked.help {
        return Ok(Request::Help(topic));
    }
    let question = match topic {
        Topic::Judge => asked.judge(),
        Topic::Run => asked.run(),
        Topic::Explain => asked.one_file().map(|file| Question::Explain { file }),
        Topic::Sheet => asked.one_file().map(|file| Question::Sheet { file }),
        Topic::Lorvisk => return Ok(Request::Help(topic)),
    };
    let hint = |wrong| format!("{wrong}: try 'lorvisk {} --help'", topic.name());
    question.map(Request::Ask).map_err(hint)
}

/// The words after a command: its options with their values, and the files that it reads.
struct Asked {
    help: bool,
    options: Vec<(&'static str, PathBuf)>,
    files: Vec<OsString>,
}

impl Asked {
    fn in_words(mut words: VecDeque<OsString>, topic: Topic) -> Result<Asked, String> {
        let mut asked = Asked {
            help: false,
            options: Vec::new(),
            files: Vec::new(),
        };
        while let Some(word) = words.pop_front() {
            match word.as_bytes() {
                b"--" => asked.files.extend(words.drain(..)),
                b"-h" | b"--help" => asked.help = true,
                b"-" => asked.files.push(word),
                option if option.starts_with(b"-") => {
                    asked.option(&word, &mut words, topic).map_err(|wrong| {
                        format!("{wrong}: try 'lorvisk {} --help'", topic.name())
                    })?;
                }
                _ => asked.files.push(word),
            }
        }
        Ok(asked)
    }

    /// An option `--name VALUE` or `--name=VALUE`, given once.
    fn option(
        &mut self,
        word: &OsString,
        words: &mut VecDeque<OsString>,
        topic: Topic,
    ) -> Result<(), String> {
        let bytes = word.as_bytes();
        let (name, value) = match bytes.iter().position(|byte| *byte == b'=') {
            Some(at) => (
                &bytes[..at],
                Some(OsString::from_vec(bytes[at + 1..].to_vec())),
            ),
            None => (bytes, None),
        };
        let known = topic
            .options()
            .iter()
            .find(|known| known.as_bytes() == name);
        let known = *known.ok_or_else(|| {
            format!(
                "there is no option '{0}', and a file of that name is './{0}'",
                shown(word)
            )
        })?;
        let value = value.or_else(|| words.pop_front()).unwrap_or_default();
        if value.is_empty() {
            return Err(format!("{known} needs the name of a file after it"));
        }
        if value.as_bytes() == b"-" {
            return Err(format!(
                "{known} takes no '-'; a file of that name is './-'"
            ));
        }
        if self.options.iter().any(|(name, _)| *name == known) {
            return Err(format!("{known} is given twice"));
        }
        self.options.push((known, value.into()));
        Ok(())
    }

    fn optional(&self, option: &str) -> Option<PathBuf> {
        let given = self.options.iter().find(|(name, _)| *name == option);
        given.map(|(_, value)| value.clone())
    }

    fn needed(&self, option: &str) -> Result<PathBuf, String> {
        self.optional(option)
            .ok_or_else(|| format!("{option} is missing"))
    }

    fn one_file(self) -> Result<Input, String> {
        let mut files = self.files.into_iter();
        match (files.next(), files.next()) {
            (Some(file), None) => Ok(Input::named(file)),
            (None, _) => Err("no file is given".to_string()),
            _ => Err("more than one file is given".to_string()),
        }
    }

    fn judge(self) -> Result<Question, String> {
        let sheet = self.optional("--sheet");
        let files: Vec<Input> = self.files.into_iter().map(Input::named).collect();
        if files.is_empty() {
            return Err("no file is given".to_string());
        }
        if sheet.is_some() && files.len() > 1 {
            return Err("--sheet is for one file, and more are given".to_string());
        }
        if files
            .iter()
            .filter(|file| **file == Input::Standard)
            .count()
            > 1
        {
            return Err("'-' is given twice, and there is one standard input".to_string());
        }
        Ok(Question::Judge { files, sheet })
    }

    fn run(self) -> Result<Question, String> {
        Ok(Question::Run(Run {
            global: self.needed("--global")?,
            shared: self.needed("--shared")?,
            loads: self.needed("--loads")?,
            results: self.needed("--results")?,
            sheet: self.optional("--sheet"),
            trace: self.one_file()?,
        }))
    }
}
