//! What keeps the tool from a verdict, and the status that it ends with.

use crate::verdict::Status;
use programs::Silence;
use std::io::Write;

pub enum Trouble {
    /// A file or a name that cannot be used, and what to do.
    Unusable(String),
    /// A proved program was started and said nothing that counts.
    Silent(String),
}

impl Trouble {
    /// Says it on standard error.
    pub fn tell(&self) -> Status {
        match self {
            Trouble::Unusable(what) => {
                complain(what);
                Status::Unusable
            }
            Trouble::Silent(what) => {
                complain(&format!(
                    "{what}: this is no verdict; try again, and report it if it stays so"
                ));
                Status::NoVerdict
            }
        }
    }

    /// The same trouble, with the file that it befell.
    pub fn of(self, file: &str) -> Trouble {
        match self {
            Trouble::Unusable(what) => Trouble::Unusable(format!("{file}: {what}")),
            Trouble::Silent(what) => Trouble::Silent(format!("{file}: {what}")),
        }
    }
}

impl From<Silence> for Trouble {
    fn from(silence: Silence) -> Trouble {
        Trouble::Silent(silence.to_string())
    }
}

/// A line on standard error. Where that is closed nobody hears it, and the status has to do.
pub fn complain(what: &str) {
    let _ = writeln!(std::io::stderr(), "lorvisk: {what}");
}
