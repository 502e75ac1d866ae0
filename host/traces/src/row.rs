//! One line of the table.

use crate::file::File;
use second::Answer;

/// A trace file, its name, and the answer that document 01 gives it.
#[derive(Clone, Debug, PartialEq, Eq)]
pub struct Row {
    pub name: String,
    pub file: Vec<u8>,
    pub answer: Answer,
}

/// The row of a name without its ending.
pub fn row(name: &str, file: File, answer: Answer) -> Row {
    Row { name: format!("{name}.trace"), file: file.0, answer }
}
