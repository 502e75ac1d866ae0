//! The words after the program's name.

use benchmarks::cases::{Case, CASES};
use benchmarks::judges::{Judge, PROVED, SIMPLE};

pub const HELP: &str = "\
usage: benchmarks [--rounds NUMBER]
       benchmarks --case NAME --judge simple|proved --times NUMBER

Measures what judging costs: the proved library beside a simple judge in plain
Rust that compares each event with every earlier one. First checks that both
give the answer that each file has to get.

  --rounds NUMBER   so many rounds, in each of which both judges have a turn of
                    2 to 4 milliseconds on every file; the smallest time counts
                    (200 if not given, about 20 seconds)

For a profiler, calls one judge alone on one file of 1,024 events:

  --case NAME       sixteen_open, all_open, both_chains_open or
                    refused_at_its_end
  --judge NAME      simple or proved
  --times NUMBER    so many times";

const ROUNDS: u64 = 200;

pub enum Request {
    Help,
    Measure {
        rounds: u64,
    },
    Call {
        case: Case,
        judge: Judge,
        times: u64,
    },
}

/// The words that were given, by what they are for.
#[derive(Default)]
struct Given {
    rounds: Option<u64>,
    case: Option<Case>,
    judge: Option<Judge>,
    times: Option<u64>,
}

pub fn parse(mut words: impl Iterator<Item = String>) -> Result<Request, String> {
    let mut given = Given::default();
    while let Some(word) = words.next() {
        if word == "--help" {
            return Ok(Request::Help);
        }
        let value = words.next().ok_or(HELP)?;
        match word.as_str() {
            "--rounds" => given.rounds = Some(number(&value)?),
            "--case" => given.case = Some(case(&value)?),
            "--judge" => given.judge = Some(judge(&value)?),
            "--times" => given.times = Some(number(&value)?),
            _ => return Err(HELP.to_string()),
        }
    }
    request(given).ok_or_else(|| HELP.to_string())
}

/// Either way of asking, but not parts of both.
fn request(given: Given) -> Option<Request> {
    match (given.rounds, given.case, given.judge, given.times) {
        (rounds, None, None, None) => Some(Request::Measure {
            rounds: rounds.unwrap_or(ROUNDS),
        }),
        (None, Some(case), Some(judge), Some(times)) => Some(Request::Call { case, judge, times }),
        _ => None,
    }
}

/// A number from 1 on.
fn number(word: &str) -> Result<u64, String> {
    let number = word.parse().ok().filter(|number| *number > 0);
    number.ok_or_else(|| format!("{word} is no number from 1 on"))
}

fn case(word: &str) -> Result<Case, String> {
    let found = CASES.into_iter().find(|case| case.name == word);
    found.ok_or_else(|| format!("{word} is no case"))
}

fn judge(word: &str) -> Result<Judge, String> {
    let found = [SIMPLE, PROVED]
        .into_iter()
        .find(|judge| judge.name == word);
    found.ok_or_else(|| format!("{word} is no judge"))
}
