//! Writes the trace files of the table and their answers into a folder:
//! `write_traces FOLDER`. Other files of the folder stay.

use std::path::Path;
use std::process::ExitCode;
use std::{env, fs, io};

fn main() -> ExitCode {
    let mut arguments = env::args_os().skip(1);
    let (folder, more) = (arguments.next(), arguments.next());
    match (folder, more) {
        (Some(folder), None) => match write(Path::new(&folder)) {
            Ok(()) => ExitCode::SUCCESS,
            Err(error) => {
                eprintln!("write_traces: {}: {error}", Path::new(&folder).display());
                ExitCode::FAILURE
            }
        },
        _ => {
            eprintln!("usage: write_traces FOLDER");
            ExitCode::FAILURE
        }
    }
}

fn write(folder: &Path) -> io::Result<()> {
    fs::create_dir_all(folder)?;
    for row in traces::rows() {
        fs::write(folder.join(&row.name), &row.file)?;
    }
    fs::write(folder.join(traces::ANSWERS), traces::answers())
}
