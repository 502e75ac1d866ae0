//! What a command reads: a file by its name, or standard input as `-`.

use crate::names::shown;
use crate::put;
use crate::trouble::Trouble;
use std::ffi::{OsStr, OsString};
use std::fs::File;
use std::io;
use std::path::{Path, PathBuf};
use std::process::Stdio;

#[derive(Clone, Debug, PartialEq, Eq)]
pub enum Input {
    File(PathBuf),
    Standard,
}

impl Input {
    pub fn named(name: OsString) -> Input {
        match name == OsStr::new("-") {
            true => Input::Standard,
            false => Input::File(name.into()),
        }
    }

    pub fn shown(&self) -> String {
        match self {
            Input::File(name) => shown(name.as_os_str()),
            Input::Standard => "standard input".to_string(),
        }
    }

    /// A path that leads to it.
    pub fn path(&self) -> &Path {
        match self {
            Input::File(name) => name,
            Input::Standard => Path::new("/dev/stdin"),
        }
    }

    /// It, for a program to read.
    pub fn open(&self) -> Result<Stdio, Trouble> {
        match self {
            Input::File(name) => Ok(open(name)?.into()),
            Input::Standard => Ok(Stdio::inherit()),
        }
    }
}

/// The file of a name, which must be there and no folder.
pub fn open(name: &Path) -> Result<File, Trouble> {
    let file = File::open(name).map_err(cannot_be_read)?;
    match file.metadata().map_err(cannot_be_read)?.is_dir() {
        true => Err(Trouble::Unusable(
            "it is a folder: name the files in it".to_string(),
        )),
        false => Ok(file),
    }
}

pub fn cannot_be_read(error: io::Error) -> Trouble {
    Trouble::Unusable(format!(
        "it cannot be read: {error}: check its name and your permission"
    ))
}

/// An input that can be read twice, by its name: an ordinary file itself, and of anything else, as standard input, a copy
/// that goes with this value.
pub struct Kept {
    path: PathBuf,
    copied: bool,
}

impl Kept {
    pub fn of(input: &Input) -> Result<Kept, Trouble> {
        let name = match input {
            Input::File(name) => name,
            Input::Standard => return copied(&mut io::stdin().lock()),
        };
        let mut file = open(name)?;
        match file.metadata().map_err(cannot_be_read)?.is_file() {
            true => Ok(Kept {
                path: name.clone(),
                copied: false,
            }),
            false => copied(&mut file),
        }
    }

    pub fn path(&self) -> &Path {
        &self.path
    }

    pub fn input(&self) -> Input {
        Input::File(self.path.clone())
    }
}

impl Drop for Kept {
    fn drop(&mut self) {
        if self.copied {
            let _ = std::fs::remove_file(&self.path);
        }
    }
}

/// A copy of what is read, which nobody else may read.
fn copied(input: &mut dyn io::Read) -> Result<Kept, Trouble> {
    let copied = put::new_file(&std::env::temp_dir(), 0o600).and_then(|(path, mut file)| {
        let kept = Kept { path, copied: true };
        io::copy(input, &mut file).map(|_| kept)
    });
    copied.map_err(|error| {
        Trouble::Unusable(format!("it cannot be kept in a temporary file: {error}"))
    })
}
