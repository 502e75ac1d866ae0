//! The tests of the second program, one subject a file.

mod document;
mod groups;
mod lists;
mod orders;
mod program;
mod random;
mod refusals;
mod runs;
mod sheets;
mod words;
