//! Files that appear at their names whole or not at all: written beside the name, then renamed.

use crate::names::{folder_of, shown};
use crate::trouble::Trouble;
use std::fs::{self, File, OpenOptions};
use std::io::{self, Write};
use std::os::unix::fs::OpenOptionsExt;
use std::path::{Path, PathBuf};

/// Removes a file that stands at a name, so that what is found there later was put there since.
pub fn clear(name: &Path) -> Result<(), Trouble> {
    let cleared = match found(name) {
        Ok(None) => Ok(()),
        // A link may lead to a device, which nobody means to replace.
        Ok(Some(_)) if fs::metadata(name).map_or(true, |found| found.is_file()) => {
            fs::remove_file(name)
        }
        Ok(Some(_)) => Err(unfit("what stands there is no file")),
        Err(error) => Err(error),
    };
    cleared.map_err(|error| cannot_be(name, "cleared", &error))
}

/// Removes a folder that holds no more than these files.
pub fn clear_folder(name: &Path, files: &[&str]) -> Result<(), Trouble> {
    let cleared = match found(name) {
        Ok(None) => Ok(()),
        Ok(Some(found)) if found.is_dir() => remove_folder(name, files),
        Ok(Some(_)) => Err(unfit("what stands there is no folder")),
        Err(error) => Err(error),
    };
    cleared.map_err(|error| cannot_be(name, "cleared", &error))
}

/// What stands at a name, in a folder that has to be there.
fn found(name: &Path) -> io::Result<Option<fs::Metadata>> {
    if !fs::metadata(folder_of(name))?.is_dir() {
        return Err(unfit("what should be its folder is none"));
    }
    match fs::symlink_metadata(name) {
        Err(error) if error.kind() == io::ErrorKind::NotFound => Ok(None),
        found => found.map(Some),
    }
}

/// Nothing is removed unless everything may be.
fn remove_folder(name: &Path, files: &[&str]) -> io::Result<()> {
    let entries = fs::read_dir(name)?.collect::<io::Result<Vec<_>>>()?;
    for entry in &entries {
        if !files.iter().any(|file| entry.file_name() == *file) || entry.file_type()?.is_dir() {
            return Err(unfit(
                "it holds something else: name a folder of results, or one that is not there",
            ));
        }
    }
    for entry in entries {
        fs::remove_file(entry.path())?;
    }
    fs::remove_dir(name)
}

/// Puts a file of these bytes at a name.
pub fn put(name: &Path, bytes: &[u8]) -> Result<(), Trouble> {
    let put = new_file(folder_of(name), 0o666).and_then(|(temporary, file)| {
        let put = write(file, bytes).and_then(|()| fs::rename(&temporary, name));
        if put.is_err() {
            let _ = fs::remove_file(&temporary);
        }
        put
    });
    put.map_err(|error| cannot_be(name, "written", &error))
}

/// Puts a folder of these files at a name: all of them appear at once.
pub fn put_folder(name: &Path, files: &[(&str, &[u8])]) -> Result<(), Trouble> {
    let put = fresh(folder_of(name), |temporary| fs::create_dir(temporary)).and_then(
        |(temporary, ())| {
            let put = write_all(&temporary, files).and_then(|()| fs::rename(&temporary, name));
            if put.is_err() {
                let _ = fs::remove_dir_all(&temporary);
            }
            put
        },
    );
    put.map_err(|error| cannot_be(name, "written", &error))
}

/// A new file in a folder, with these permissions at most.
pub fn new_file(folder: &Path, mode: u32) -> io::Result<(PathBuf, File)> {
    fresh(folder, |name| {
        OpenOptions::new()
            .write(true)
            .create_new(true)
            .mode(mode)
            .open(name)
    })
}

/// Makes something in a folder at a name that nothing has: one left by a tool that was killed stays where it is.
fn fresh<T>(folder: &Path, make: impl Fn(&Path) -> io::Result<T>) -> io::Result<(PathBuf, T)> {
    for number in 0..1_000 {
        let name = folder.join(format!(".lorvisk-{}-{number}", std::process::id()));
        match make(&name) {
            Err(error) if error.kind() == io::ErrorKind::AlreadyExists => {}
            made => return made.map(|made| (name, made)),
        }
    }
    Err(unfit(
        "its folder is full of files '.lorvisk-..' that no tool uses any more: remove them",
    ))
}

fn write_all(folder: &Path, files: &[(&str, &[u8])]) -> io::Result<()> {
    for (name, bytes) in files {
        write(File::create(folder.join(name))?, bytes)?;
    }
    Ok(())
}

/// The bytes are on the disk when this returns.
fn write(mut file: File, bytes: &[u8]) -> io::Result<()> {
    file.write_all(bytes)?;
    file.sync_all()
}

fn unfit(why: &str) -> io::Error {
    io::Error::new(io::ErrorKind::Other, why)
}

fn cannot_be(name: &Path, done: &str, error: &io::Error) -> Trouble {
    let name = shown(name.as_os_str());
    Trouble::Unusable(format!(
        "{name} cannot be {done}: {error}: check the name and your permission"
    ))
}
