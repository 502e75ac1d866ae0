//! Files as the proved programs can open them.

use std::ffi::{OsStr, OsString};
use std::fs::File;
use std::os::unix::io::AsRawFd;

/// A file's name for a proved program. Those open names in UTF-8 alone, so a file of another name is opened here, and named
/// by its descriptor, which stays open as long as this stands.
pub(crate) struct Lent {
    name: OsString,
    _open: Option<File>,
}

impl Lent {
    /// A file that cannot be opened keeps its name: the program has no verdict for it.
    pub(crate) fn of(name: &OsStr) -> Lent {
        let open = match name.to_str() {
            Some(_) => None,
            None => File::open(name).ok(),
        };
        let name = match &open {
            Some(file) => by_descriptor(file),
            None => name.to_owned(),
        };
        Lent { name, _open: open }
    }

    pub(crate) fn name(&self) -> &OsStr {
        &self.name
    }
}

fn by_descriptor(file: &File) -> OsString {
    format!("/proc/{}/fd/{}", std::process::id(), file.as_raw_fd()).into()
}
