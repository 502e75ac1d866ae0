//! `differential PROGRAMS`: compares the proved programs, started as the files in the folder PROGRAMS tell, with the second
//! program. The same seed gives the same files. Ends with status 0 only if the parts that were
//! asked for ran and nothing differed.

use differential::comparison::{Comparison, Counts};
use differential::parts::{Part, PARTS};
use differential::subject::Proved;
use std::collections::BTreeMap;
use std::path::PathBuf;
use std::process::ExitCode;
use std::time::Instant;

const USAGE: &str = "\
usage: differential [--seed NUMBER] [--times NUMBER] [--only PART] PROGRAMS

Compares the proved programs with the second program. PROGRAMS is the folder that
tools/build makes: it tells how each proved program is started.

  --seed NUMBER    what the files are drawn from (1 if not given)
  --times NUMBER   so many times the usual number of files (1 if not given)
  --only PART      one part alone: table, files, runs, orders, waiting, recording
                   or sheets";

/// All parts together compare so many files at least.
const LEAST: u64 = 100_000;

struct Request {
    seed: u64,
    times: u64,
    only: Option<String>,
    programs: PathBuf,
}

fn main() -> ExitCode {
    let compared = request(std::env::args().skip(1)).and_then(|request| compare(&request));
    match compared {
        Ok(()) => ExitCode::SUCCESS,
        Err(what) => {
            println!("{what}");
            ExitCode::FAILURE
        }
    }
}

fn request(words: impl Iterator<Item = String>) -> Result<Request, String> {
    let mut request = Request {
        seed: 1,
        times: 1,
        only: None,
        programs: PathBuf::new(),
    };
    let mut words = words;
    while let Some(word) = words.next() {
        match word.as_str() {
            "--seed" => request.seed = number(words.next())?,
            "--times" => request.times = number(words.next())?,
            "--only" => request.only = Some(words.next().ok_or(USAGE)?),
            _ if word.starts_with('-') || request.programs.is_absolute() => {
                return Err(USAGE.to_string());
            }
            _ => {
                request.programs =
                    std::fs::canonicalize(&word).map_err(|error| format!("{word}: {error}"))?
            }
        }
    }
    match request.programs.is_absolute() && request.times > 0 {
        true => Ok(request),
        false => Err(USAGE.to_string()),
    }
}

fn number(word: Option<String>) -> Result<u64, String> {
    word.and_then(|word| word.parse().ok())
        .ok_or_else(|| USAGE.to_string())
}

fn compare(request: &Request) -> Result<(), String> {
    let asked = |part: &&Part| {
        request
            .only
            .as_deref()
            .map_or(true, |only| only == part.name)
    };
    let parts: Vec<&Part> = PARTS.iter().filter(asked).collect();
    if parts.is_empty() {
        return Err(USAGE.to_string());
    }
    println!(
        "differential tests, seed {}, times {}",
        request.seed, request.times
    );
    let mut proved = Proved::in_folder(&request.programs)?;
    let mut all = Counts::default();
    for part in parts {
        all.add(&compare_part(part, request, &mut proved)?);
    }
    println!("files judged, by code: {}", told(&all.judged));
    println!("runs, by code: {}", told(&all.ran));
    let (judged, ran, sheets) = (all.judged(), all.ran(), all.sheets);
    let files = judged + ran;
    if request.only.is_none() && files < LEAST {
        return Err(format!("{files} files were compared, fewer than {LEAST}"));
    }
    println!("no difference in {files} files ({judged} judged, {ran} run) and {sheets} sheets");
    Ok(())
}

fn compare_part(part: &Part, request: &Request, proved: &mut Proved) -> Result<Counts, String> {
    let Part { name, shows, .. } = part;
    let begun = Instant::now();
    let mut comparison = Comparison::new(proved, request.seed ^ part.seed(), request.times);
    (part.compare)(&mut comparison).map_err(|difference| format!("{name}: {difference}"))?;
    let counts = comparison.counts;
    let (judged, ran, sheets) = (counts.judged(), counts.ran(), counts.sheets);
    let seconds = begun.elapsed().as_secs_f32();
    println!("{name:9} {judged:7} files {ran:6} runs {sheets:6} sheets {seconds:6.1} s  {shows}");
    Ok(counts)
}

fn told(counts: &BTreeMap<u16, u64>) -> String {
    let told = |(code, count): (&u16, &u64)| format!("{code}: {count}");
    counts.iter().map(told).collect::<Vec<String>>().join(", ")
}
