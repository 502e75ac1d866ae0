//! What the tool said: its status, its output and its errors.

use std::ffi::OsString;
use std::process::Output;

pub const ACCEPTED: i32 = 0;
pub const REFUSED: i32 = 1;
pub const UNUSABLE: i32 = 2;
pub const NO_VERDICT: i32 = 3;

/// Whatever the tool says is text.
#[derive(Debug)]
pub struct Said {
    pub words: Vec<OsString>,
    pub status: Option<i32>,
    pub out: String,
    pub err: String,
}

impl Said {
    pub fn of(words: Vec<OsString>, output: Output) -> Said {
        Said {
            words,
            status: output.status.code(),
            out: String::from_utf8(output.stdout).expect("output in UTF-8"),
            err: String::from_utf8(output.stderr).expect("errors in UTF-8"),
        }
    }

    /// It ended with this status.
    #[track_caller]
    pub fn ends(&self, status: i32) -> &Said {
        assert_eq!(self.status, Some(status), "{self:#?}");
        self
    }

    /// It ended by itself and with another status than that of acceptance.
    #[track_caller]
    pub fn does_not_accept(&self) -> &Said {
        assert!(matches!(self.status, Some(1..=3)), "{self:#?}");
        self
    }

    /// These lines are its output, and no others.
    #[track_caller]
    pub fn prints(&self, lines: &[&str]) -> &Said {
        let out: Vec<&str> = self.out.lines().collect();
        assert_eq!(out, lines, "{self:#?}");
        assert!(self.out.is_empty() || self.out.ends_with('\n'), "{self:#?}");
        self
    }

    /// These words stand in its output.
    #[track_caller]
    pub fn says(&self, words: &str) -> &Said {
        assert!(self.out.contains(words), "'{words}' in {self:#?}");
        self
    }

    /// One line stands in its output whose words, after its indent, are these.
    #[track_caller]
    pub fn says_line(&self, line: &str) -> &Said {
        let found = self.out.lines().any(|said| said.trim_start() == line);
        assert!(found, "'{line}' in {self:#?}");
        self
    }

    #[track_caller]
    pub fn does_not_say(&self, words: &str) -> &Said {
        assert!(!self.out.contains(words), "'{words}' in {self:#?}");
        self
    }

    /// These words stand in its errors.
    #[track_caller]
    pub fn complains(&self, words: &str) -> &Said {
        assert!(self.err.contains(words), "'{words}' in {self:#?}");
        self
    }

    /// Nothing stands in its errors.
    #[track_caller]
    pub fn is_content(&self) -> &Said {
        assert_eq!(self.err, "", "{self:#?}");
        self
    }
}
