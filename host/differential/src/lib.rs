//! Compares the proved programs with the second program, file by file, run by run and sheet by sheet.

pub mod comparison;
pub mod parts;
pub mod random;
pub mod subject;

mod damage;
mod lists;
mod smallest;
