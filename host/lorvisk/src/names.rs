//! File names as they are shown, and whether two names mean one file.

use std::ffi::OsStr;
use std::os::unix::ffi::OsStrExt;
use std::os::unix::fs::MetadataExt;
use std::path::{Path, PathBuf};

/// A name on one line: what could end the line, or change how a terminal shows it, is escaped, for a file's name must not
/// write another file's verdict.
pub fn shown(name: &OsStr) -> String {
    if name.is_empty() {
        return "''".to_string();
    }
    let mut text = String::new();
    let mut rest = name.as_bytes();
    while !rest.is_empty() {
        let valid = match std::str::from_utf8(rest) {
            Ok(_) => rest.len(),
            Err(error) => error.valid_up_to(),
        };
        let (good, after) = rest.split_at(valid);
        for character in String::from_utf8_lossy(good).chars() {
            match character {
                '\'' | '"' => text.push(character),
                _ => text.extend(character.escape_debug()),
            }
        }
        rest = after;
        if let Some((byte, after)) = rest.split_first() {
            text.push_str(&format!("\\x{byte:02x}"));
            rest = after;
        }
    }
    text
}

/// The folder that a name is in.
pub fn folder_of(name: &Path) -> &Path {
    match name.parent() {
        Some(folder) if !folder.as_os_str().is_empty() => folder,
        _ => Path::new("."),
    }
}

/// Whether the first name is, or will be, in a folder of the second name, or at that name itself.
pub fn is_in(name: &Path, folder: &Path) -> bool {
    place(name).starts_with(place(folder))
}

/// A path without links and dots, as far as it is there.
fn place(name: &Path) -> PathBuf {
    match (std::fs::canonicalize(name), name.file_name()) {
        (Ok(place), _) => place,
        (Err(_), Some(last)) => place(folder_of(name)).join(last),
        (Err(_), None) => name.to_path_buf(),
    }
}

/// Whether both names lead to one file that is there.
pub fn same_file(one: &Path, other: &Path) -> bool {
    match (std::fs::metadata(one), std::fs::metadata(other)) {
        (Ok(one), Ok(other)) => (one.dev(), one.ino()) == (other.dev(), other.ino()),
        _ => false,
    }
}

#[cfg(test)]
mod tests {
    use super::*;

    #[test]
    fn a_name_stays_on_its_line() {
        let cases: [(&[u8], &str); 7] = [
            (b"", "''"),
            (b"a b'c\"", "a b'c\""),
            (b"a\nb: accepted", "a\\nb: accepted"),
            (b"a\\nb", "a\\\\nb"),
            (b"\x1b[2K", "\\u{1b}[2K"),
            (b"\xff\xc3\xa9\xc3", "\\xff\u{e9}\\xc3"),
            ("\u{202e}".as_bytes(), "\\u{202e}"),
        ];
        for (name, text) in cases {
            assert_eq!(shown(OsStr::from_bytes(name)), text);
        }
    }
}
